//! The paper's scripts: what stands in their bytes.

use std::ops::RangeInclusive;

use crate::common::numbers::*;
use crate::common::step::{Answer, Step};

pub const KINDS: RangeInclusive<u8> = READ..=WIPE;

/// A key, and the bits of a time.
pub type Press = (u8, u64);

#[derive(Clone, Copy)]
pub struct ScriptStep {
    pub kind: u8,
    pub size: u8,
    pub unused: [u8; 2],
    pub address: u32,
    pub value: u64,
}

impl ScriptStep {
    /// As the whole bus's lists have it: sixteen times the kind, and with the
    /// size for reads and writes. From 5 on one size is as bad as another.
    pub fn on_bus(self) -> Step {
        let size = if matches!(self.kind, READ | WRITE) { self.size.min(15) } else { 0 };
        let kind = 16 * u64::from(self.kind) + u64::from(size);
        Step { kind, address: self.address.into(), value: self.value }
    }
}

pub struct Script {
    pub presses: Vec<Press>,
    pub steps: Vec<ScriptStep>,
}

fn number<const N: usize>(bytes: &[u8], at: usize) -> Option<[u8; N]> {
    bytes.get(at..at + N)?.try_into().ok()
}

/// A count, unless it is above what is allowed.
fn count(bytes: &[u8], at: usize, most: usize) -> Option<usize> {
    let count = u32::from_le_bytes(number(bytes, at)?) as usize;
    (count <= most).then_some(count)
}

fn press(bytes: &[u8]) -> Option<Press> {
    Some((bytes[0], u64::from_le_bytes(number(bytes, 1)?)))
}

fn step(bytes: &[u8]) -> Option<ScriptStep> {
    KINDS.contains(&bytes[0]).then_some(ScriptStep {
        kind: bytes[0],
        size: bytes[1],
        unused: number(bytes, 2)?,
        address: u32::from_le_bytes(number(bytes, 4)?),
        value: u64::from_le_bytes(number(bytes, 8)?),
    })
}

impl Script {
    /// None is what the paper calls a bad script.
    pub fn read(bytes: &[u8]) -> Option<Script> {
        let first_step = 8 + PRESS_BYTES * count(bytes, 0, MOST_PRESSES)?;
        let steps = count(bytes, first_step - 4, MOST_STEPS)?;
        if bytes.len() != first_step + STEP_BYTES * steps {
            return None;
        }
        let presses = bytes[4..first_step - 4].chunks_exact(PRESS_BYTES).map(press);
        let steps = bytes[first_step..].chunks_exact(STEP_BYTES).map(step);
        Some(Script {
            presses: presses.collect::<Option<_>>()?,
            steps: steps.collect::<Option<_>>()?,
        })
    }

    pub fn answers(&self) -> usize {
        self.presses.len() + self.steps.len()
    }
}

/// How many bytes so many answers take.
pub fn out_length(answers: usize) -> usize {
    4 + ANSWER_BYTES * answers
}

pub fn write_answer(answer: Answer, to: &mut [u8]) {
    to[0] = answer.refusal;
    for (word, to) in answer.words.iter().zip(to[1..].chunks_exact_mut(8)) {
        to.copy_from_slice(&word.to_le_bytes());
    }
}

/// The answer of this number, unless it would pass the end of `out`.
pub fn read_answer(out: &[u8], at: usize) -> Option<Answer> {
    let bytes = out.get(out_length(at)..out_length(at + 1))?;
    let word = |n: usize| number(bytes, 1 + 8 * n).map(u64::from_le_bytes);
    Some(Answer { refusal: bytes[0], words: [word(0)?, word(1)?, word(2)?] })
}
