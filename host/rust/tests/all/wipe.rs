//! A wipe leaves the same unit and the same memories, whatever they held; and any bytes are a unit.

use tg18::{Memories, Unit};

use crate::made::{same_bytes, script, steps, Random};

#[test]
fn units_of_any_bytes_are_equal_after_a_wipe() {
    let (mut random, zero) = (Random::new(6), Memories::new());
    let mut memories = Memories::new();
    for _ in 0..20 {
        let mut unit = random.unit();
        random.fill(&mut memories.ram_mut()[..0x1_0000]);
        random.fill(memories.sram_mut());
        random.fill(memories.gpio_mut());
        random.fill(memories.framebuffer_mut());
        unit.wipe(&mut memories).unwrap();
        assert_eq!(unit.bytes(), Unit::fresh().bytes());
        assert!(same_bytes(&memories, &zero));
        let mut other = random.unit();
        other.make_fresh();
        assert_eq!(other.bytes(), unit.bytes());
    }
}

/// Nothing is asked of a unit's bytes: every call ends, and a wipe after it is a wipe.
#[test]
fn any_bytes_run_scripts() {
    let (mut random, mut memories) = (Random::new(7), Memories::new());
    for _ in 0..50 {
        let mut unit = random.unit();
        let mut out = vec![0; tg18::out_bytes(0, 200)];
        unit.continue_script(&mut memories, &script(&[], &steps(&mut random, 200)), &mut out).unwrap();
        let _ = (unit.tod(), unit.ticks(), unit.alarm_ticks(), unit.keys_held(), unit.irq_wanted(), unit.counters());
        unit.wipe(&mut memories).unwrap();
        assert_eq!(unit.bytes(), Unit::fresh().bytes());
    }
}

#[test]
fn a_clone_is_a_unit_of_its_own() {
    let (mut unit, mut memories) = (Unit::fresh(), Memories::new());
    unit.live_key(0u32, true).unwrap();
    let (kept, kept_memories) = (unit.clone(), memories.clone());
    unit.advance(&mut memories, 1.0).unwrap();
    assert_eq!((kept.tod(), kept.keys_held()), (0, [true, false, false]));
    assert_eq!((memories.gpio()[0x20], kept_memories.gpio()[0x20]), (0x20, 0));
}
