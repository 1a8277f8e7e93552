//! The families of scripts that are refused as a whole, and of those that are
//! nearly so.

use crate::bytes::*;
use crate::cases::Case;
use crate::common::numbers::{PENDING, PRESS_BYTES, STEP_BYTES};
use crate::common::random::Random;
use crate::memories::LENGTHS;

type Fault = fn(&mut Case, &mut Random);

pub const FAULTS: [(&str, Fault); 5] = [
    ("malformed", malformed),
    ("lengths", lengths),
    ("outs", outs),
    ("damaged", damaged),
    ("several", several),
];

/// Counts at their limits, and such that 9 and 16 times them go round in 32
/// bits.
#[rustfmt::skip]
const COUNTS: [u32; 14] = [
    0, 1, 4095, 4096, 4097, 8192, 65_536, 0x0FFF_FFFF, 0x1000_0000, 0x1000_0001, 0x1C71_C71C,
    0x1C71_C71D, 0x8000_0000, u32::MAX,
];

fn put(bytes: &mut [u8], at: usize, count: u32) {
    if let Some(place) = bytes.get_mut(at..at + 4) {
        place.copy_from_slice(&count.to_le_bytes());
    }
}

/// Where the count of steps stands in a good script.
fn steps_at(bytes: &[u8]) -> usize {
    4 + PRESS_BYTES * u32::from_le_bytes(bytes[..4].try_into().unwrap()) as usize
}

/// A script of these counts and of as many bytes as they say, going round in
/// 32 bits, unless that is too many. All its steps ask what is pending.
pub fn of_counts(presses: u32, steps: u32) -> Vec<u8> {
    let at = presses.wrapping_mul(PRESS_BYTES as u32).wrapping_add(4);
    let length = at.wrapping_add(4).wrapping_add(steps.wrapping_mul(STEP_BYTES as u32));
    let mut bytes = vec![PENDING; (length as usize).min(200_000)];
    put(&mut bytes, 0, presses);
    put(&mut bytes, at as usize, steps);
    bytes
}

fn malformed(case: &mut Case, random: &mut Random) {
    let bytes = &mut case.script;
    let at = steps_at(bytes);
    let count = random.pick(&COUNTS);
    match random.below(10) {
        0 => put(bytes, 0, count),
        1 => put(bytes, at, count),
        2 => bytes.truncate(random.below(bytes.len() + 1)),
        3 => bytes.truncate(bytes.len() - 1),
        4 => bytes.extend(&[0; 16][..random.between(1, 16)]),
        5 => bytes.truncate(random.below(9)),
        6 => *bytes = of_counts(random.pick(&COUNTS), count),
        7 => *bytes = of_counts(random.pick(&[0, 1, 4096, 4097]), random.pick(&[0, 1, 4096, 4097])),
        // Only the last kind is bad, so nothing may have been done before.
        8 if bytes.len() > at + 4 => {
            let last = bytes.len() - STEP_BYTES;
            bytes[last] = random.pick(&[0, 13, 14, 255]);
        }
        _ if bytes.len() > at + 4 => {
            let steps = (bytes.len() - at - 4) / STEP_BYTES;
            bytes[at + 4 + STEP_BYTES * random.below(steps)] = random.pick(&[0, 12, 13, 255]);
        }
        _ => put(bytes, at, 1),
    }
    case.out = random.pick(&[case.out, case.out, 204_804, 205_000]);
}

fn lengths(case: &mut Case, random: &mut Random) {
    for _ in 0..random.pick(&[1, 1, 2]) {
        let memory = random.below(4);
        let right = LENGTHS[memory];
        case.lengths[memory] = random.pick(&[0, 1, right - 1, right + 1, right / 2, right]);
    }
}

/// The exact length, one less, and others beside it.
fn outs(case: &mut Case, random: &mut Random) {
    if random.one_in(3) {
        case.script = of_counts(random.pick(&[0, 0, 1, 64]), random.pick(&[0, 0, 1]));
    }
    let Some(script) = Script::read(&case.script) else { return };
    let exact = out_length(script.answers());
    let less = random.below(exact);
    case.out = random.pick(&[exact, exact, exact - 1, exact + 1, 0, 3, 4, less, exact - 4, exact]);
}

/// Bytes altered, missing, added; or whole steps changed about, so that the
/// script stays good.
fn damaged(case: &mut Case, random: &mut Random) {
    let bytes = &mut case.script;
    let at = steps_at(bytes) + 4;
    match random.below(3) {
        0 => random.damage(bytes),
        1 => {
            for _ in 0..random.between(1, 20) {
                let place = random.below(bytes.len());
                bytes[place] = random.byte();
            }
        }
        _ => {
            let steps = (bytes.len() - at) / STEP_BYTES;
            for _ in 0..random.between(1, 20) {
                let (one, other) = (random.below(steps.max(1)), random.below(steps.max(1)));
                let place = at + STEP_BYTES * one + random.pick(&[1, 4, 5, 6, 7, 8, 14, 15]);
                if let Some(byte) = bytes.get_mut(place) {
                    *byte = random.byte();
                }
                let from = at + STEP_BYTES * other;
                if from < bytes.len() && random.one_in(3) {
                    bytes.copy_within(from..from + STEP_BYTES, at + STEP_BYTES * one);
                }
            }
        }
    }
}

/// More than one thing that a script is refused for, or a fault and none.
fn several(case: &mut Case, random: &mut Random) {
    let faults: [Fault; 3] = [lengths, malformed, |case, random| case.out = random.below(case.out)];
    for fault in faults {
        if random.one_in(2) {
            fault(case, random);
        }
    }
}
