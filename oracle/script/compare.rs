//! Runs scripts through the Rust device and through the port's library, which
//! is linked in, and compares all that they leave.

#[path = "../bus/mod.rs"]
mod bus;
mod bytes;
mod cases;
#[path = "../common/mod.rs"]
mod common;
mod counts;
mod device_cases;
mod faults;
mod make;
mod memories;
mod port;
mod replay;
mod run;
mod stage;
mod starts;
mod steps;

use std::fs;
use std::process::ExitCode;

use cases::{makings, Case};
use common::device::*;
use common::ended::ended;
use common::folded::folded;
use common::full::*;
use counts::Counts;
use stage::{Difference, Stage};

/// The script is kept where it can be run again.
fn judge<T>(ran: Result<T, Difference>, case: &Case, kept: &str) -> Result<T, String> {
    ran.map_err(|difference| {
        let kept = match fs::write(kept, &case.script) {
            Ok(()) => format!("script: {kept}"),
            Err(error) => format!("{kept}: {error}"),
        };
        format!("{difference}\n{kept}")
    })
}

/// Scripts from the first number on: `count` of them, in all or of one family.
fn compare(
    seed: u64,
    first: u64,
    count: u64,
    family: &str,
    kept: &str,
) -> Result<(Counts, u64), String> {
    let makings = makings();
    let (mut counts, mut stage) = (Counts::default(), Stage::new());
    let turns =
        (first..).map(|number| (number, &makings[(number % makings.len() as u64) as usize]));
    let wished = turns.filter(|(_, making)| family.is_empty() || making.name == family);
    for (number, making) in wished.take(count as usize) {
        let case = making.make(seed, number);
        let name = format!("family {}, seed {seed}, script {number}", making.name);
        // Should the port break off, this is what remains.
        eprintln!("running {name}");
        let ran = stage.run(&case, seed.wrapping_add(number));
        let outcome = judge(ran, &case, kept).map_err(|said| format!("{name}: {said}"))?;
        counts.add(&case, &outcome);
    }
    Ok((counts, stage.bytes))
}

/// One script from memories that are zero, with all its answers.
fn run_file(path: &str, kept: &str) -> Result<(), String> {
    let script = fs::read(path).map_err(|error| format!("{path}: {error}"))?;
    let case = Case::of_script(script);
    let outcome = judge(Stage::new().run(&case, 0), &case, kept)?;
    println!("returned {}", outcome.returned);
    if outcome.returned == 0 {
        let count = u32::from_le_bytes(outcome.out[..4].try_into().unwrap()) as usize;
        for answer in (0..count).filter_map(|at| bytes::read_answer(&outcome.out, at)) {
            println!("{answer}");
        }
    }
    Ok(())
}

/// The list for replay, and nothing of it if there is a difference.
fn write_list(kept: &str) -> Result<(), String> {
    let (mut stage, mut list) = (Stage::new(), String::new());
    for (number, case) in (1..).zip(replay::cases()) {
        let name = format!("line {number}, family {}", case.family);
        eprintln!("running {name}");
        let (outcome, memories) = judge(stage.run_digested(&case, 0), &case, kept)
            .map_err(|said| format!("{name}: {said}"))?;
        list += &replay::line(&case, &outcome, memories);
    }
    print!("{}", folded(&list));
    Ok(())
}

fn run(words: &[&str]) -> Option<Result<(), String>> {
    Some(match *words {
        ["families"] => {
            makings().iter().for_each(|making| println!("{}", making.name));
            Ok(())
        }
        ["file", path, kept] => run_file(path, kept),
        ["list", kept] => write_list(kept),
        ["seed", seed, first, count, family, kept] => {
            let (seed, first, count) =
                (seed.parse().ok()?, first.parse().ok()?, count.parse().ok()?);
            compare(seed, first, count, family, kept).map(|(counts, bytes)| {
                counts.report();
                println!("bytes compared {bytes}, differences 0");
            })
        }
        _ => return None,
    })
}

fn main() -> ExitCode {
    ended(run, "families | file SCRIPT KEPT | list KEPT | seed SEED FIRST COUNT FAMILY KEPT")
}
