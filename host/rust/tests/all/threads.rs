//! Units in many threads at once, and from one thread to the next.

use std::thread;

use tg18::{Memories, Unit};

use crate::made::{same_bytes, script, steps, Random};

/// A unit that has run some scripts: all its bytes, and its memories.
fn run(seed: u64) -> (Vec<u8>, Memories<'static>) {
    let (mut unit, mut memories) = (Unit::fresh(), Memories::new());
    let mut random = Random::new(seed);
    for _ in 0..4 {
        let steps = steps(&mut random, 1000);
        let mut out = vec![0; tg18::out_bytes(0, 1000)];
        unit.continue_script(&mut memories, &script(&[], &steps), &mut out).unwrap();
    }
    (unit.bytes(), memories)
}

#[test]
fn units_share_nothing() {
    let threads: Vec<_> = (0..16).map(|seed| thread::spawn(move || run(seed))).collect();
    for (seed, thread) in (0..).zip(threads) {
        let ((unit, memories), (alone, alone_memories)) = (thread.join().unwrap(), run(seed));
        assert_eq!(unit, alone);
        assert!(same_bytes(&memories, &alone_memories));
    }
}

#[test]
fn a_unit_goes_from_thread_to_thread() {
    let (mut unit, mut memories) = (Unit::fresh(), Memories::new());
    for second in 1..=8 {
        let moved = thread::spawn(move || {
            unit.advance(&mut memories, f64::from(second)).unwrap();
            (unit, memories)
        });
        (unit, memories) = moved.join().unwrap();
    }
    assert_eq!(unit.tod(), 8);
}

/// Lent memories go with their lender's leave.
#[test]
fn lent_memories_in_a_scope() {
    let mut all: Vec<[Vec<u8>; 4]> = (0..4)
        .map(|_| [tg18::RAM_BYTES, tg18::SRAM_BYTES, tg18::GPIO_BYTES, tg18::FRAMEBUFFER_BYTES].map(|n| vec![0; n]))
        .collect();
    thread::scope(|scope| {
        for (n, [ram, sram, gpio, framebuffer]) in (1..).zip(&mut all) {
            let mut memories = Memories::lent(ram, sram, gpio, framebuffer);
            scope.spawn(move || Unit::fresh().write(&mut memories, 0x2000_0000, 4, n).unwrap());
        }
    });
    assert_eq!([1, 2, 3, 4].map(|n| all[n - 1][0][0]), [1, 2, 3, 4]);
}
