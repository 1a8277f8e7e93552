//! Scripts and what they are run over. The seed and a number say all of it.

use crate::bus::families::{Author, FAMILIES};
use crate::bus::limits::LARGE;
use crate::bus::list::List;
use crate::bytes::{out_length, Script};
use crate::common::device::timer_word;
use crate::common::generator::{Authorship, Family};
use crate::common::numbers::*;
use crate::common::random::Random;
use crate::faults::FAULTS;
use crate::memories::LENGTHS;
use crate::starts::{put_into, puts, Put, PICTURES};
use crate::steps::OWN;

/// So many scripts in a row start with the same picture.
const ROW: u64 = 128;

pub struct Case {
    pub family: &'static str,
    pub script: Vec<u8>,
    /// The lengths of the slice for the answers and of the memories.
    pub out: usize,
    pub lengths: [usize; 4],
    pub picture: usize,
    pub picture_seed: u64,
    pub puts: Vec<Put>,
}

impl Case {
    /// Any bytes, from memories that are zero, with room for all answers.
    pub fn of_script(script: Vec<u8>) -> Case {
        Case {
            family: "",
            out: out_length(MOST_PRESSES + MOST_STEPS),
            script,
            lengths: LENGTHS,
            picture: 0,
            picture_seed: 0,
            puts: Vec::new(),
        }
    }
}

/// What makes a script: actions, and then a fault or none.
pub struct Making {
    pub name: &'static str,
    actions: &'static Family<Author>,
    steps: fn(&mut Random) -> usize,
    fault: Option<fn(&mut Case, &mut Random)>,
}

/// All families, each taking its turn.
pub fn makings() -> Vec<Making> {
    let wild = Family::named("wild").expect("a family of the whole bus");
    let plain = |actions: &'static Family<Author>| Making {
        name: actions.name,
        actions,
        steps: if LARGE.contains(&actions.name) { more } else { some },
        fault: None,
    };
    let mut makings: Vec<Making> = FAMILIES.iter().chain(&OWN).map(plain).collect();
    makings.push(Making { name: "long", steps: many, ..plain(wild) });
    makings.extend(FAULTS.iter().map(|&(name, fault)| Making {
        name,
        fault: Some(fault),
        ..plain(wild)
    }));
    makings
}

/// Most scripts are short.
fn some(random: &mut Random) -> usize {
    let (few, more, most) =
        (random.between(0, 30), random.between(30, 150), random.between(150, 600));
    random.pick(&[few, few, few, few, few, few, more, more, more, most])
}

/// Enough to fill every place now and then.
fn more(random: &mut Random) -> usize {
    random.pick(&[10, 100, 300, 500])
}

fn many(random: &mut Random) -> usize {
    random.pick(&[1000, 2000, MOST_STEPS, MOST_STEPS])
}

impl Making {
    pub fn make(&self, seed: u64, number: u64) -> Case {
        let mut random = Random::new(seed.wrapping_mul(0x1_0000_0001).wrapping_add(number));
        let mut author = Author::new(random.next());
        let puts = puts(&mut random);
        put_into(&mut author.list.device.system, &puts);
        let steps = (self.steps)(&mut random);
        while author.list.steps() < steps {
            self.actions.act(&mut author);
        }
        end(&mut author, &mut random);
        let mut script = Script::of(author.into_list().into_steps());
        if random.one_in(2) {
            script.fill_unused(&mut random);
        }
        let more = random.pick(&[0, 0, 1, 25, 333]);
        let mut case = Case {
            family: self.name,
            out: out_length(script.answers()) + more,
            script: script.bytes(),
            lengths: LENGTHS,
            picture: (number / ROW) as usize % PICTURES,
            picture_seed: seed.wrapping_add(number / ROW),
            puts,
        };
        if let Some(fault) = self.fault {
            fault(&mut case, &mut random);
        }
        case
    }
}

/// Mostly a look at some of the state or at all of it.
fn end(author: &mut Author, random: &mut Random) {
    match random.below(8) {
        0 => {}
        1..=4 => look_a_little(&mut author.list),
        _ => author.end(),
    }
}

pub fn look_a_little(list: &mut List) {
    list.look_state();
    let counter = timer_word(SOUND_TIMER, COUNTER_AT);
    for word in [KEY_LINES, counter, RTC_SECONDS, SPIFC_ANSWER, LCD_STATUS, SYSCLK_VAR] {
        list.read(word);
    }
    list.take();
    list.pixel(0);
}
