//! Scripts made of the whole bus's steps, and their bytes.

use crate::bus::kinds::*;
use crate::bytes::*;
use crate::common::numbers::{MOST_PRESSES, MOST_STEPS, PIXELS};
use crate::common::random::Random;
use crate::common::step::Step;

/// The sizes that are not refused.
const SIZES: [u8; 3] = [1, 2, 4];

fn scripted(step: Step) -> ScriptStep {
    ScriptStep {
        kind: (step.kind / 16) as u8,
        size: (step.kind % 16) as u8,
        unused: [0; 2],
        address: step.address as u32,
        value: step.value,
    }
}

impl Script {
    /// Presses stand before all steps in a script, so they are moved there.
    /// What no script has is dropped, and what there are too many of.
    pub fn of(list: Vec<Step>) -> Script {
        let (presses, steps): (Vec<Step>, Vec<Step>) =
            list.into_iter().partition(|step| step.kind == PRESS);
        let press = |step: Step| (step.address as u8, step.value);
        let steps = steps.into_iter().filter(|step| step.kind < PRESS).map(scripted);
        Script {
            presses: presses.into_iter().map(press).take(MOST_PRESSES).collect(),
            steps: steps.take(MOST_STEPS).collect(),
        }
    }

    pub fn bytes(&self) -> Vec<u8> {
        let mut bytes = (self.presses.len() as u32).to_le_bytes().to_vec();
        for (key, time) in &self.presses {
            bytes.push(*key);
            bytes.extend(time.to_le_bytes());
        }
        bytes.extend((self.steps.len() as u32).to_le_bytes());
        for step in &self.steps {
            bytes.extend([step.kind, step.size]);
            bytes.extend(step.unused);
            bytes.extend(step.address.to_le_bytes());
            bytes.extend(step.value.to_le_bytes());
        }
        bytes
    }

    /// Whatever a step does not use becomes anything.
    pub fn fill_unused(&mut self, random: &mut Random) {
        for step in &mut self.steps {
            step.unused = [random.byte(), random.byte()];
            let (address, value) = (random.next() as u32, random.next());
            match u64::from(step.kind) * 16 {
                READ => step.value = value,
                WRITE => step.value = step.value & 0xFFFF_FFFF | value << 32,
                ADVANCE | TURBO => step.address = address,
                PIXEL => {
                    step.address = step.address % PIXELS as u32 | address & !(PIXELS as u32 - 1);
                    step.value = value;
                }
                LIVE if step.value != 0 => step.value = value | 1 << random.below(64),
                LIVE | HOLD => {}
                _ => (step.address, step.value) = (address, value),
            }
            let sized = matches!(u64::from(step.kind) * 16, READ | WRITE);
            if !sized || !SIZES.contains(&step.size) {
                step.size = random.byte();
            }
        }
    }
}
