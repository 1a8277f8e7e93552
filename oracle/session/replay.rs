//! The list for replay: pairs, and what the Rust device makes of each from
//! memories that are zero, for places that cannot run the oracle.

use std::collections::BTreeSet;
use std::fmt::Write;

use crate::altered::ALTERATIONS;
use crate::bus::steps::{digest, Board};
use crate::common::step::Device;
use crate::pairs::{makings, Pair};
use crate::run::continue_script;
use crate::situations::Situations;
use crate::stage::Ran;

const SEED: u64 = 201;

/// How often each family has its turn; a pair is no longer than this, and a
/// first choice no longer than that.
const TURNS: usize = 24;
const LONGEST: usize = 16_000;
const SHORT: usize = 2_400;

fn length(pair: &Pair) -> usize {
    pair.scripts.iter().map(|(script, _)| script.len()).sum()
}

/// What stands at the cuts, as the device alone shows.
fn standing(pair: &Pair) -> BTreeSet<String> {
    let (mut board, mut situations) = (Board::start(), Situations::default());
    let (_, before_cuts) = pair.scripts.split_last().expect("a script");
    for (script, out) in before_cuts {
        continue_script(&mut board, script, &mut vec![0; *out]);
        situations.look(&mut board.system);
        board.system.timers_resync();
    }
    situations.names()
}

/// One short pair of each family, and then, as long as something has stood at
/// no cut of theirs, always one that has most of that. Last, such as show what
/// alterations none of them shows.
pub fn pairs() -> Vec<Pair> {
    let makings = makings();
    let numbers = 0..(TURNS * makings.len()) as u64;
    let made = numbers.map(|number| makings[number as usize % makings.len()].make(SEED, number));
    let zero = made.map(|pair| Pair { picture: 0, picture_seed: 0, puts: Vec::new(), ..pair });
    let fit = zero.filter(|pair| length(pair) <= LONGEST);
    let mut all: Vec<(BTreeSet<String>, Pair)> = fit.map(|pair| (standing(&pair), pair)).collect();
    all.sort_by_key(|(_, pair)| length(pair) > SHORT);

    let (mut taken, mut families, mut stood) = (Vec::new(), BTreeSet::new(), BTreeSet::new());
    let mut rest = Vec::new();
    for (names, pair) in all {
        if length(&pair) >= SHORT / 4 && families.insert(pair.family) {
            stood.extend(names);
            taken.push(pair);
        } else {
            rest.push((names, pair));
        }
    }
    loop {
        let more = |(names, _): &(BTreeSet<String>, Pair)| names.difference(&stood).count();
        let Some(best) = (0..rest.len()).rev().max_by_key(|&at| more(&rest[at])) else { break };
        if more(&rest[best]) == 0 {
            break;
        }
        let (names, pair) = rest.remove(best);
        stood.extend(names);
        taken.push(pair);
    }
    for alteration in &ALTERATIONS {
        if !taken.iter().any(|pair| alteration.shows(pair)) {
            let shows = rest.iter().position(|(_, pair)| alteration.shows(pair));
            taken.extend(shows.map(|at| rest.remove(at).1));
        }
    }
    taken
}

fn hex(bytes: &[u8]) -> String {
    if bytes.is_empty() {
        return "-".to_string();
    }
    bytes.iter().fold(String::new(), |mut text, byte| {
        write!(text, "{byte:02x}").unwrap();
        text
    })
}

/// Family, how many scripts, digests of the memories at the end; and of each
/// script: length of the slice for the answers, what is returned, digest of
/// that slice, the session's size and the digest of what comes before its
/// memories (0 and 0 after the last), script.
pub fn line(pair: &Pair, ran: &[Ran], memories: [u64; 4]) -> String {
    let mut line = format!("{} {}", pair.family.replace(' ', "_"), pair.scripts.len());
    memories.iter().for_each(|digest| write!(line, " {digest:016x}").unwrap());
    for ((script, out), ran) in pair.scripts.iter().zip(ran) {
        let (size, head) = ran.session.unwrap_or((0, 0));
        let answers = digest(&ran.out);
        write!(line, " {out} {} {answers:016x} {size} {head:016x}", ran.returned).unwrap();
        write!(line, " {}", hex(script)).unwrap();
    }
    line.push('\n');
    line
}
