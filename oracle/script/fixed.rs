//! The fixed list of scripts: cases of the whole bus, families in turn, and
//! what only scripts have. Every answer of every script is shown.

use crate::bus::cases::{memories, merged_words};
use crate::bus::clock_cases::{adc_controls, ports_and_power};
use crate::bus::device_cases::{answers_of_flash, programs};
use crate::bus::families::{Author, FAMILIES};
use crate::bus::fixed::examples;
use crate::bus::limit_cases::{next_events, wiping};
use crate::bus::list::List;
use crate::bus::status_cases::{masks, room};
use crate::bus::time_cases::{full_store, timer_controls, tones};
use crate::bytes::*;
use crate::cases::look_a_little;
use crate::common::generator::{expect, Authorship};
use crate::common::random::Random;
use crate::common::step::Answer;
use crate::common::step_list::StepList;
use crate::desk::*;
use crate::device_cases::devices;
use crate::memories::Memories;
use crate::starts::fill;
use crate::steps::OWN;

/// Cases of the whole bus, and what fills the memories before them.
const CASES: [(fn(&mut List), u64); 15] = [
    (examples, 0),
    (memories, 5),
    (merged_words, 2),
    (room, 0),
    (masks, 0xFFFF_FFFF),
    (timer_controls, 0),
    (tones, 77),
    (full_store, 1),
    (programs, 0),
    (answers_of_flash, 9),
    (devices, 0),
    (adc_controls, 0),
    (ports_and_power, 0),
    (next_events, 0),
    (wiping, 300),
];

/// The families of which there is a script, for what the cases lack.
const TURNS: [&str; 7] = ["rtc", "clock", "next", "limits", "ends", "selects", "any"];

/// A list of scripts being written.
pub struct Sheet {
    pub list: StepList<Desk>,
}

pub fn fixed_list() -> StepList<Desk> {
    let mut sheet = Sheet { list: StepList::new() };
    sheet.list.begin("cases of the whole bus");
    for (case, seed) in CASES {
        let mut list = List::new();
        case(&mut list);
        sheet.good(&Script::of(list.into_steps()), seed);
    }
    let families = FAMILIES.iter().chain(&OWN);
    let families = families.filter(|family| TURNS.contains(&family.name));
    for (number, family) in families.enumerate() {
        let seed = [0, 9, 0xFFFF_FFFF][number % 3];
        let mut author = author(number as u64, seed);
        while author.list.steps() < 12 {
            family.act(&mut author);
        }
        look_a_little(&mut author.list);
        let mut script = Script::of(author.into_list().into_steps());
        if number % 4 == 0 {
            script.fill_unused(&mut Random::new(number as u64));
        }
        sheet.list.begin(family.name);
        sheet.good(&script, seed);
    }
    sheet.list.begin("whole scripts");
    sheet.whole_scripts();
    sheet.list
}

/// Its device has the memories that the script starts with.
fn author(number: u64, seed: u64) -> Author {
    let mut author = Author::new(number);
    let mut memories = Memories::zero();
    fill(&mut memories, seed);
    memories.swap(&mut author.list.device.system);
    author
}

impl Sheet {
    /// The script's bytes, and the memories.
    pub fn lay(&mut self, script: &[u8], seed: u64) {
        self.list.step(LAY, 0, script.len() as u64);
        for (at, bytes) in script.chunks(8).enumerate() {
            let mut word = [0; 8];
            word[..bytes.len()].copy_from_slice(bytes);
            if word != [0; 8] {
                self.list.step(BYTES, 8 * at as u64, u64::from_le_bytes(word));
            }
        }
        self.list.step(FILL, seed, 0);
    }

    /// A run, so many of its answers, and what is left in the memories.
    pub fn run(&mut self, out: usize, answers: usize) -> Answer {
        let returned = self.list.step(RUN, 0, out as u64);
        for answer in 0..answers {
            self.list.step(SHOW, answer as u64, 0);
        }
        for memory in 0..4 {
            self.list.step(DIGEST, memory, 0);
        }
        returned
    }

    /// A script that is not refused, with all answers.
    pub fn good(&mut self, script: &Script, seed: u64) {
        self.lay(&script.bytes(), seed);
        let answers = script.answers();
        let ran = self.run(out_length(answers), answers);
        assert_eq!(ran.words[..2], [0, answers as u64]);
    }

    /// A script that is refused as a whole, and its first answer's bytes.
    pub fn bad(&mut self, script: &[u8], out: usize, refusal: u8) {
        self.lay(script, 6);
        let ran = self.run(out, 1);
        assert_eq!(ran.words[..2], [refusal.into(), 0xA5A5_A5A5]);
    }

    /// What the desk itself refuses, or drops.
    pub fn desk_limits(&mut self) {
        expect(self.list.step(LAY, 0, LONGEST + 1), 1, [0, 0, 0]);
        expect(self.list.step(SHOW, 1310, 0), 1, [0, 0, 0]);
        self.list.step(SHOW, 1309, 0);
        expect(self.list.step(DIGEST, 4, 0), 1, [0, 0, 0]);
    }
}
