//! Runs pairs of scripts through the Rust device and through the port's
//! library, which is linked in, with a session saved and resumed between, and
//! compares all that they leave.

mod altered;
#[path = "../bus/mod.rs"]
mod bus;
#[path = "../script/bytes.rs"]
mod bytes;
#[path = "../script/cases.rs"]
#[allow(dead_code)]
mod cases;
#[path = "../common/mod.rs"]
mod common;
mod cuts;
mod damage;
#[path = "../script/faults.rs"]
mod faults;
mod judge;
mod layout;
#[path = "../script/make.rs"]
mod make;
#[path = "../script/memories.rs"]
#[allow(dead_code)]
mod memories;
mod pairs;
mod port;
mod replay;
#[path = "../script/run.rs"]
#[allow(dead_code)]
mod run;
mod situations;
mod stage;
#[path = "../script/starts.rs"]
mod starts;
#[path = "../script/steps.rs"]
mod steps;

use std::collections::BTreeMap;
use std::fs;
use std::process::ExitCode;

use altered::{Alter, ALTERATIONS};
use bytes::{read_answer, Script};
use common::device::*;
use common::ended::ended;
use common::folded::folded;
use common::full::*;
use common::random::Random;
use damage::Damages;
use pairs::{makings, Making, Pair};
use stage::{Ran, Stage};

/// Of so many pairs one has its last session damaged, and of this family every
/// pair.
const DAMAGED: u64 = 8;
const ALL_DAMAGED: &str = "full tables";

/// An alteration is tried until it was found so often, or in so many pairs.
const FOUND: u64 = 5;
const PAIRS: u64 = 5000;

#[derive(Default)]
struct Counts {
    pairs: u64,
    scripts: u64,
    presses: u64,
    steps: u64,
    chains: BTreeMap<usize, u64>,
    families: BTreeMap<&'static str, u64>,
    returned: BTreeMap<u32, u64>,
    kinds: BTreeMap<u8, u64>,
    refusals: BTreeMap<u8, u64>,
}

fn print<K: std::fmt::Display>(name: &str, counts: &BTreeMap<K, u64>) {
    let each: Vec<String> = counts.iter().map(|(key, count)| format!("{key}: {count}")).collect();
    println!("{name}: {}", each.join(", "));
}

impl Counts {
    fn add(&mut self, pair: &Pair, ran: &[Ran]) {
        self.pairs += 1;
        *self.chains.entry(pair.scripts.len() - 1).or_default() += 1;
        *self.families.entry(pair.family).or_default() += 1;
        for ((bytes, _), ran) in pair.scripts.iter().zip(ran) {
            self.scripts += 1;
            *self.returned.entry(ran.returned).or_default() += 1;
            let Some(script) = Script::read(bytes).filter(|_| ran.returned == 0) else { continue };
            self.presses += script.presses.len() as u64;
            self.steps += script.steps.len() as u64;
            script.steps.iter().for_each(|step| *self.kinds.entry(step.kind).or_default() += 1);
            for answer in (0..script.answers()).filter_map(|at| read_answer(&ran.out, at)) {
                *self.refusals.entry(answer.refusal).or_default() += 1;
            }
        }
    }

    fn report(&self) {
        print("families", &self.families);
        print("pairs by cuts", &self.chains);
        print("scripts returned", &self.returned);
        print("kinds of steps run", &self.kinds);
        print("refusals of presses and steps run", &self.refusals);
        println!(
            "pairs {}, scripts {}, presses run {}, steps run {}",
            self.pairs, self.scripts, self.presses, self.steps
        );
    }
}

/// From the first number on, all families in turn or one.
fn turns<'a>(
    makings: &'a [Making],
    first: u64,
    family: &'a str,
) -> impl Iterator<Item = (u64, &'a Making)> {
    let turn = move |number| (number, &makings[(number % makings.len() as u64) as usize]);
    (first..).map(turn).filter(move |(_, making)| family.is_empty() || making.name == family)
}

/// The scripts are kept where they can be run again.
fn keep(pair: &Pair, kept: &str) -> String {
    for (at, (script, _)) in pair.scripts.iter().enumerate() {
        if let Err(error) = fs::write(format!("{kept}.{}", at + 1), script) {
            return format!("{kept}: {error}");
        }
    }
    format!("scripts: {kept}.1 to {}", pair.scripts.len())
}

fn compare(seed: u64, first: u64, count: u64, family: &str, kept: &str) -> Result<(), String> {
    let makings = makings();
    let (mut counts, mut stage, mut damages) =
        (Counts::default(), Stage::new(), Damages::default());
    for (number, making) in turns(&makings, first, family).take(count as usize) {
        let pair = making.make(seed, number);
        let name = format!("family {}, seed {seed}, pair {number}", making.name);
        // Should the port break off, this is what remains.
        eprintln!("running {name}");
        let ran = stage
            .run(&pair, None)
            .map_err(|said| format!("{name}: {said}\n{}", keep(&pair, kept)))?;
        counts.add(&pair, &ran);
        if number % DAMAGED == 0 || making.name == ALL_DAMAGED {
            let mut random = Random::new(pair.seed ^ 1);
            damages
                .try_all(&mut stage.port, &mut random)
                .map_err(|said| format!("{name}, damaged: {said}"))?;
        }
    }
    counts.report();
    stage.situations.report();
    let tried = &stage.tried;
    println!(
        "saved into exactly enough room {}, into the most {}, into too little (15) {}; \
         over a memory of another length (7) {}; saved again the same {}",
        tried.exact, tried.most, tried.short, tried.lengths, tried.again
    );
    println!(
        "sessions as the Rust's fields say: before the memories {}, memories {}",
        tried.heads, tried.memories
    );
    damages.report();
    println!("bytes compared {}, differences 0", stage.bytes);
    match stage.situations.missing()[..] {
        [] => Ok(()),
        ref missing if family.is_empty() && count >= 2000 => {
            Err(format!("never at a cut: {}", missing.join(", ")))
        }
        _ => Ok(()),
    }
}

/// Each alteration of the Rust's side must be found.
fn alter(seed: u64) -> Result<(), String> {
    let (makings, mut stage) = (makings(), Stage::new());
    let mut never = Vec::new();
    for alteration in &ALTERATIONS {
        let (mut pairs, mut came, mut found) = (0, 0, 0);
        let mut said = String::new();
        for (number, making) in turns(&makings, 0, "").take(PAIRS as usize) {
            if found == FOUND {
                break;
            }
            let pair = making.make(seed, number);
            pairs += 1;
            if !alteration.comes(&pair) {
                continue;
            }
            let mut alter = Alter { alteration, came: false };
            let ran = stage.run(&pair, Some(&mut alter));
            came += u64::from(alter.came);
            match ran {
                Err(what) if alter.came => {
                    said = format!("{}, pair {number}: {what}", making.name);
                    found += 1;
                }
                Err(what) => return Err(format!("{}: not altered, {what}", alteration.name)),
                Ok(_) => {}
            }
        }
        println!("{}: came in {came} of {pairs} pairs, found {found}; {said}", alteration.name);
        if found == 0 {
            never.push(alteration.name);
        }
    }
    match never[..] {
        [] => Ok(()),
        _ => Err(format!("never found: {}", never.join(", "))),
    }
}

/// The list for replay, and nothing of it if there is a difference.
fn write_list() -> Result<(), String> {
    let (mut stage, mut list) = (Stage::new(), String::new());
    for (number, pair) in (1..).zip(replay::pairs()) {
        let name = format!("line {number}, family {}", pair.family);
        eprintln!("running {name}");
        let (ran, memories) =
            stage.run_digested(&pair).map_err(|said| format!("{name}: {said}"))?;
        list += &replay::line(&pair, &ran, memories);
    }
    print!("{}", folded(&list));
    Ok(())
}

fn run(words: &[&str]) -> Option<Result<(), String>> {
    Some(match *words {
        ["families"] => {
            makings().iter().for_each(|making| println!("{}", making.name));
            Ok(())
        }
        ["list"] => write_list(),
        ["altered", seed] => alter(seed.parse().ok()?),
        ["seed", seed, first, count, family, kept] => {
            let (seed, first, count) =
                (seed.parse().ok()?, first.parse().ok()?, count.parse().ok()?);
            compare(seed, first, count, family, kept)
        }
        _ => return None,
    })
}

fn main() -> ExitCode {
    ended(run, "families | list | altered SEED | seed SEED FIRST COUNT FAMILY KEPT")
}
