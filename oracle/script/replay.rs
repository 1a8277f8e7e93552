//! The list for replay: scripts, and what the Rust device makes of each from
//! memories that are zero, for places that cannot run the oracle.

use std::fmt::Write;
use std::ops::RangeInclusive;

use crate::bus::clock_cases::{adc_controls, ports_and_power};
use crate::bus::device_cases::{answers_of_flash, programs};
use crate::bus::flash::frame;
use crate::bus::limit_cases::next_events;
use crate::bus::list::List;
use crate::bus::status_cases::{masks, room};
use crate::bus::steps::digest;
use crate::bus::time_cases::{full_store, timer_controls, tones};
use crate::bytes::*;
use crate::cases::{makings, Case, Making};
use crate::common::numbers::{ANSWER_BYTES, FLASH_BASE, MOST_STEPS, WIPE, WRITE};
use crate::device_cases::devices;
use crate::faults::of_counts;
use crate::memories::{Memories, LENGTHS};
use crate::run::run_script;
use crate::stage::Outcome;

const SEED: u64 = 18;

/// So many scripts of each family among so many, none longer than this. Of a
/// script with more steps some first and some last ones stay.
const EACH: usize = 3;
const AMONG: usize = 12;
const LONGEST: usize = 2000;
const FIRST: usize = 32;
const LAST: usize = 16;

/// Families of which there is one more that stays whole, and its number of
/// steps: such as count further than a byte, or are the most, or leave more in
/// the memories.
const WHOLE: [(&str, RangeInclusive<usize>); 6] = [
    ("counters", 257..=700),
    ("memory", 100..=200),
    ("flash", 100..=200),
    ("panel", 100..=200),
    ("ends", 100..=200),
    ("long", MOST_STEPS..=MOST_STEPS),
];

/// Cases of the whole bus and of scripts, for what chance rarely meets: stores
/// that are full, all answers and programs of the flash, controls.
const CASES: [(&str, fn(&mut List)); 12] = [
    ("room", room),
    ("full_store", full_store),
    ("programs", programs),
    ("answers_of_flash", answers_of_flash),
    ("flash_reads", flash_reads),
    ("devices", devices),
    ("masks", masks),
    ("timer_controls", timer_controls),
    ("tones", tones),
    ("adc_controls", adc_controls),
    ("ports_and_power", ports_and_power),
    ("next_events", next_events),
];

/// Erased, programmed over a page's end, and read by both commands; its names.
fn flash_reads(list: &mut List) {
    for bytes in [
        &[0x06][..],
        &[0x20, 0, 0x30, 0],
        &[0x06],
        &[0x02, 0, 0x30, 0xFD, 0xA1, 0xA2, 0xA3, 0xA4, 0xA5],
        &[0x03, 0, 0x30, 0xFC, 0, 0, 0, 0, 0],
        &[0x0B, 0, 0x30, 0xFC, 0, 0, 0, 0, 0, 0],
        &[0x03, 0, 0x2F, 0xFE, 0, 0, 0, 0],
        &[0x90, 0, 0, 0, 0, 0, 0],
        &[0x9F, 0, 0, 0, 0],
    ] {
        frame(list, bytes);
    }
    list.counters();
}

/// What a replay does not have: other lengths of the memories, other starts.
fn from_zero(case: Case) -> Case {
    Case { family: case.family, out: case.out, ..Case::of_script(case.script) }
}

/// The slice for the answers is as much too long or too short as before.
fn cut(mut case: Case) -> Case {
    let Some(mut script) = Script::read(&case.script) else { return case };
    if script.steps.len() > FIRST + LAST {
        let dropped = script.steps.drain(FIRST..script.steps.len() - LAST).count();
        case.out = case.out.saturating_sub(ANSWER_BYTES * dropped);
        case.script = script.bytes();
    }
    case
}

fn steps(case: &Case) -> usize {
    Script::read(&case.script).map_or(0, |script| script.steps.len())
}

/// Whether it is run and leaves nothing in the memories: others come first.
fn leaves_nothing(case: &Case) -> bool {
    let mut memories = Memories::zero();
    let returned = run_script(&mut memories, &case.script, &mut vec![0; case.out]);
    returned == 0 && memories.0.iter().flatten().all(|&byte| byte == 0)
}

/// Each kind of fault by itself, and a slice that is too short or just not.
fn faulty() -> Vec<Case> {
    let step =
        |kind, size, address, value| ScriptStep { kind, size, unused: [0; 2], address, value };
    let steps = vec![step(WRITE, 4, FLASH_BASE + 0x10, 0x1234_5678), step(WIPE, 0, 0, 0)];
    let good = Script { presses: vec![(1, 0)], steps }.bytes();
    let none = Script { presses: Vec::new(), steps: Vec::new() }.bytes();
    let named = |family| move |script| Case { family, ..Case::of_script(script) };
    let mut cases = Vec::new();

    let cuts = [0, 3, 4, 7, 12, 16, 17, 33, good.len() - 1].map(|length| good[..length].to_vec());
    cases.extend(cuts.into_iter().chain([[&good[..], &[0]].concat()]).map(named("cut")));

    let most = MOST_STEPS as u32 + 1;
    let rounds = [(0, 0x1000_0000), (0, 0x1000_0002), (0x1C71_C71D, 0)];
    let counts = [(most, 0), (0, most), (u32::MAX, u32::MAX)].into_iter().chain(rounds);
    let counts = counts.map(|(presses, steps)| {
        let mut bad = of_counts(presses, steps);
        bad.truncate(64);
        bad
    });
    cases.extend(counts.map(named("counts")));

    let kinds = [0, 13, 255].into_iter().flat_map(|kind| [(32, kind), (16, kind)]);
    let kinds = kinds.map(|(before_end, kind)| {
        let mut bad = good.clone();
        bad[good.len() - before_end] = kind;
        bad
    });
    cases.extend(kinds.map(named("kinds")));

    let outs = [&good, &none].into_iter().flat_map(|script| {
        let exact = out_length(Script::read(script).expect("a good script").answers());
        [0, exact - 1, exact, exact + 1].map(|out| (script.clone(), out))
    });
    cases.extend(outs.map(|(script, out)| Case { out, ..named("out")(script) }));
    cases
}

pub fn cases() -> Vec<Case> {
    let makings = makings();
    let turns = |making: &Making| {
        let at = makings.iter().position(|other| other.name == making.name).expect("one of them");
        (at as u64..).step_by(makings.len())
    };
    let mut cases = Vec::new();
    for making in &makings {
        let made = turns(making).map(|number| cut(from_zero(making.make(SEED, number))));
        let made = made.filter(|case| case.script.len() <= LONGEST).take(AMONG);
        let mut made: Vec<Case> = made.collect();
        made.sort_by_cached_key(leaves_nothing);
        cases.extend(made.into_iter().take(EACH));
    }
    for (name, wished) in WHOLE {
        let making = makings.iter().find(|making| making.name == name).expect("a family");
        let mut made = turns(making).map(|number| from_zero(making.make(SEED, number)));
        cases.extend(made.find(|case| wished.contains(&steps(case))));
    }
    for (family, case) in CASES {
        let mut list = List::new();
        case(&mut list);
        let script = Script::of(list.into_steps()).bytes();
        cases.push(Case { family, ..Case::of_script(script) });
    }
    cases.extend(faulty());
    assert!(cases.iter().all(|case| case.lengths == LENGTHS && case.puts.is_empty()));
    cases
}

/// Family, length of the slice for the answers, what is returned, digests of
/// all of that slice and of the memories, script.
pub fn line(case: &Case, outcome: &Outcome, memories: [u64; 4]) -> String {
    let mut line = format!("{} {} {}", case.family, case.out, outcome.returned);
    for digest in [digest(&outcome.out[..case.out])].into_iter().chain(memories) {
        write!(line, " {digest:016x}").unwrap();
    }
    line.push(' ');
    if case.script.is_empty() {
        line.push('-');
    }
    case.script.iter().for_each(|byte| write!(line, "{byte:02x}").unwrap());
    line.push('\n');
    line
}
