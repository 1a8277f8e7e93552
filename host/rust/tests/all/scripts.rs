//! Scripts, whole and in parts, and the live calls that do the same.

use tg18::{out_bytes, run_script, Event, Memories, Refusal, Unit};

use crate::made::{same_bytes, script, steps, Random, Step};

/// What a script answers, without the count.
fn continued(unit: &mut Unit, memories: &mut Memories, presses: &[(u8, f64)], steps: &[Step]) -> Vec<u8> {
    let mut out = vec![0; out_bytes(presses.len(), steps.len())];
    unit.continue_script(memories, &script(presses, steps), &mut out).unwrap();
    out.split_off(4)
}

const PRESSES: [(u8, f64); 3] = [(0, 0.25), (3, 0.5), (2, 1.0)];

#[test]
fn a_script_cut_in_two_goes_on() {
    let mut random = Random::new(4);
    for cut in [0, 1, 100, 250, 400] {
        let steps = steps(&mut random, 400);
        let (mut whole, mut whole_memories) = (Unit::fresh(), Memories::new());
        let answers = continued(&mut whole, &mut whole_memories, &PRESSES, &steps);
        let (mut unit, mut memories) = (Unit::fresh(), Memories::new());
        let mut parts = continued(&mut unit, &mut memories, &PRESSES, &steps[..cut]);
        parts.extend(continued(&mut unit, &mut memories, &[], &steps[cut..]));
        assert_eq!(parts, answers);
        assert!(same_bytes(&memories, &whole_memories));
        assert_eq!(unit.bytes(), whole.bytes());
    }
}

#[test]
fn a_script_run_is_one_on_a_fresh_unit() {
    let steps = steps(&mut Random::new(5), 300);
    let (mut unit, mut memories) = (Unit::fresh(), Memories::new());
    let answers = continued(&mut unit, &mut memories, &PRESSES, &steps);
    let (mut other, mut out) = (Memories::new(), vec![0; out_bytes(3, 300)]);
    run_script(&mut other, &script(&PRESSES, &steps), &mut out).unwrap();
    assert_eq!(out[4..], answers);
    assert!(same_bytes(&memories, &other));
}

/// A step by the live call of the same kind.
fn live(unit: &mut Unit, memories: &mut Memories, step: Step) -> Result<[u64; 3], Refusal> {
    let (kind, size, address, value) = step;
    let (time, one) = (f64::from_bits(value), |a: u64| [a, 0, 0]);
    let none = |()| [0; 3];
    match kind {
        1 => unit.read(memories, address, size.into()).map(|value| one(value.into())),
        2 => unit.write(memories, address, size.into(), value as u32).map(none),
        3 => unit.advance(memories, time).map(none),
        4 => unit.next_event(memories).map(|time| one(time.to_bits())),
        5 => Ok(one(unit.pending_irq().into())),
        6 => unit.turbo(time).map(none),
        7 => unit.live_key(address, value != 0).map(none),
        8 => unit.hold_until(address, time).map(none),
        9 => sound(unit),
        10 => {
            let counters = unit.counters();
            Ok([counters.frames, counters.flash_writes, counters.powered_off.into()])
        }
        _ => colour(memories, address).map(one),
    }
}

fn sound(unit: &mut Unit) -> Result<[u64; 3], Refusal> {
    let mut event = [Event::default()];
    match unit.take_events(&mut event) {
        0 => Err(Refusal::NoEvent),
        _ => Ok([event[0].time, event[0].frequency, event[0].duty].map(f64::to_bits)),
    }
}

fn colour(memories: &Memories, pixel: u32) -> Result<u64, Refusal> {
    let mut rgb = vec![0; tg18::SCREEN_BYTES];
    memories.screen(&mut rgb)?;
    let at = 3 * (pixel as usize % 16_384);
    Ok(rgb[at..at + 3].iter().fold(0, |all, &part| all << 8 | u64::from(part)))
}

fn laid(answer: Result<[u64; 3], Refusal>) -> Vec<u8> {
    let mut bytes = vec![answer.err().map_or(0, Refusal::number) as u8];
    bytes.extend(answer.unwrap_or_default().iter().flat_map(|number| number.to_le_bytes()));
    bytes
}

#[test]
fn live_calls_do_what_steps_do() {
    for seed in 0..8 {
        let steps = steps(&mut Random::new(100 + seed), 500);
        let (mut unit, mut memories) = (Unit::fresh(), Memories::new());
        let mut answers = Vec::new();
        for (key, time) in PRESSES {
            answers.extend(laid(unit.press(key, time).map(|()| [0; 3])));
        }
        steps.iter().for_each(|step| answers.extend(laid(live(&mut unit, &mut memories, *step))));
        let (mut other, mut others) = (Unit::fresh(), Memories::new());
        assert_eq!(answers, continued(&mut other, &mut others, &PRESSES, &steps));
        assert!(same_bytes(&memories, &others));
        assert_eq!(unit.bytes(), other.bytes());
    }
}

/// What no script can ask.
#[test]
fn looks() {
    let (mut unit, mut memories) = (Unit::fresh(), Memories::new());
    for (word, data) in [(0x20, 1), (0x22, 3), (0x40, 2)] {
        unit.write(&mut memories, 0xC009_0004, 4, word).unwrap();
        unit.write(&mut memories, 0xC009_0008, 4, data).unwrap();
        unit.write(&mut memories, 0xC009_000C, 4, 1).unwrap();
    }
    assert_eq!(unit.alarm_ticks(), Some(0x3_0001));
    unit.write(&mut memories, 0xC004_0008, 4, 25).unwrap();
    unit.advance(&mut memories, 1.25).unwrap();
    assert_eq!((unit.tod(), unit.ticks()), (3601, 40_960));
    unit.write(&mut memories, 0xC00C_0004, 4, 0x4040).unwrap();
    unit.advance(&mut memories, 1.5).unwrap();
    assert_eq!((unit.pending_irq(), unit.irq_wanted()), (29, true));
    unit.write(&mut memories, 0xD010_0038, 4, 1).unwrap();
    assert_eq!((unit.pending_irq(), unit.irq_wanted()), (29, false));
    assert_eq!(unit.peek32(&memories, 0xD010_0038), Ok(1));
    let mut across = [0xA5; 4];
    assert_eq!(unit.read_block(&memories, 0x20FF_FFFE, &mut across), Ok(false));
    assert_eq!(across, [0; 4]);
}
