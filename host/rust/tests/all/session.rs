//! Sessions: saved and resumed, and what is refused.

use tg18::{Key, Memories, Refusal, Unit, SAVE_MOST};

use crate::made::{same_bytes, script, steps, Random};

/// A unit some way into a run, with memories that hold something.
fn in_a_run(random: &mut Random) -> (Unit, Memories<'static>) {
    let (mut unit, mut memories) = (Unit::fresh(), Memories::new());
    random.fill(&mut memories.ram_mut()[..0x1_0000]);
    random.fill(memories.sram_mut());
    let mut out = vec![0; tg18::out_bytes(0, 300)];
    unit.continue_script(&mut memories, &script(&[], &steps(random, 300)), &mut out).unwrap();
    unit.press(Key::B, 500.0).unwrap();
    (unit, memories)
}

/// The unit with the periods that the other's timers have seen: a session does not have them, and a resume counts anew.
fn with_periods_of(unit: &Unit, other: &Unit) -> Unit {
    let mut bytes = unit.bytes();
    bytes[200..248].copy_from_slice(&other.bytes()[200..248]);
    Unit::from_bytes(&bytes).unwrap()
}

#[test]
fn a_resumed_session_goes_on_as_the_saved_one() {
    let (mut random, mut saved, mut again) = (Random::new(20), vec![0; SAVE_MOST], vec![0; SAVE_MOST]);
    for _ in 0..10 {
        let (mut unit, mut memories) = in_a_run(&mut random);
        let bytes = unit.save(&memories, &mut saved).unwrap();
        let (mut other, mut others) = (random.unit(), Memories::new());
        random.fill(&mut others.ram_mut()[..0x2_0000]);
        other.resume(&mut others, &saved[..bytes]).unwrap();
        assert!(same_bytes(&memories, &others));
        assert_eq!(other.save(&others, &mut again), Ok(bytes));
        assert!(saved[..bytes] == again[..bytes]);
        unit = with_periods_of(&unit, &other);
        let later = script(&[(1, 700.0)], &steps(&mut random, 300));
        let (mut out, mut other_out) = (vec![0; tg18::out_bytes(1, 300)], vec![1; tg18::out_bytes(1, 300)]);
        unit.continue_script(&mut memories, &later, &mut out).unwrap();
        other.continue_script(&mut others, &later, &mut other_out).unwrap();
        assert_eq!(out, other_out);
        assert!(same_bytes(&memories, &others));
    }
}

#[test]
fn room_for_it_and_no_more() {
    let (unit, memories) = in_a_run(&mut Random::new(21));
    let mut saved = vec![0xA5; SAVE_MOST];
    let bytes = unit.save(&memories, &mut saved).unwrap();
    assert!(saved[bytes..].iter().all(|&byte| byte == 0xA5));
    let mut short = vec![0xA5; bytes - 1];
    assert_eq!(unit.save(&memories, &mut short), Err(Refusal::SaveTooShort));
    assert!(short.iter().all(|&byte| byte == 0xA5));
    let mut exact = vec![0xA5; bytes];
    assert_eq!(unit.save(&memories, &mut exact), Ok(bytes));
    assert!(exact == saved[..bytes]);
}

#[test]
fn what_is_no_session_changes_nothing() {
    let (mut unit, mut memories) = in_a_run(&mut Random::new(22));
    let (unit_before, before) = (unit.bytes(), memories.clone());
    let mut saved = vec![0; SAVE_MOST];
    let bytes = Unit::fresh().save(&Memories::new(), &mut saved).unwrap();
    let mut other_count = saved[..bytes].to_vec();
    other_count[0] = 7;
    for wrong in [&saved[..bytes - 1], &saved[..bytes + 1], &saved[1..bytes + 1], &[][..], &other_count[..]] {
        assert_eq!(unit.resume(&mut memories, wrong), Err(Refusal::BadSave));
        assert_eq!(unit.bytes(), unit_before);
        assert!(same_bytes(&memories, &before));
    }
}
