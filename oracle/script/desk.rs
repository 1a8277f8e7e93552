//! The steps of a list that lays down scripts, runs them over small memories
//! and shows what they leave.

use crate::bus::steps::digest;
use crate::bytes::read_answer;
use crate::common::step::*;
use crate::memories::Memories;
use crate::run::run_script;
use crate::starts::fill;

pub const LAY: u64 = 0xC0;
pub const BYTES: u64 = 0xC1;
pub const FILL: u64 = 0xC2;
pub const RUN: u64 = 0xC3;
pub const SHOW: u64 = 0xC4;
pub const DIGEST: u64 = 0xC5;

/// The longest script, and all that there is for its answers.
pub const LONGEST: u64 = 16_384;
pub const OUT: usize = 32_768;

/// What the bytes for the answers hold before a run.
const UNTOUCHED: u8 = 0xA5;

/// For what is not there.
const NONE: u8 = 1;

pub struct Desk {
    script: Vec<u8>,
    out: Vec<u8>,
    memories: Memories,
}

impl Device for Desk {
    const KINDS: &'static [u64] = &[LAY, BYTES, FILL, RUN, SHOW, DIGEST];

    fn start() -> Desk {
        Desk { script: Vec::new(), out: vec![UNTOUCHED; OUT], memories: Memories::zero() }
    }

    /// Any kind that is not here.
    fn ends(step: Step) -> bool {
        !Desk::KINDS.contains(&step.kind)
    }

    fn answer(&mut self, step: Step) -> Answer {
        let Step { kind, address, value } = step;
        match kind {
            LAY => self.lay(value),
            BYTES => self.write(address as usize, value),
            FILL => {
                fill(&mut self.memories, address);
                DONE
            }
            RUN => self.run(value.min(OUT as u64) as usize),
            SHOW => read_answer(&self.out, address as usize).unwrap_or(refused(NONE)),
            _ => self.digest(address as usize),
        }
    }
}

impl Desk {
    fn lay(&mut self, length: u64) -> Answer {
        if length > LONGEST {
            return refused(NONE);
        }
        self.script = vec![0; length as usize];
        self.out.fill(UNTOUCHED);
        DONE
    }

    fn write(&mut self, at: usize, value: u64) -> Answer {
        for (place, byte) in self.script.iter_mut().skip(at).zip(value.to_le_bytes()) {
            *place = byte;
        }
        DONE
    }

    fn run(&mut self, lent: usize) -> Answer {
        let returned = run_script(&mut self.memories, &self.script, &mut self.out[..lent]);
        let count = u32::from_le_bytes([self.out[0], self.out[1], self.out[2], self.out[3]]);
        words(returned.into(), count.into(), digest(&self.out))
    }

    fn digest(&self, number: usize) -> Answer {
        match self.memories.0.get(number) {
            Some(memory) => words(digest(memory), memory.len() as u64, 0),
            None => refused(NONE),
        }
    }
}
