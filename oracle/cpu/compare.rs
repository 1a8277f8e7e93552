//! Runs ARM programs on the Rust's processor twice: over the Rust's bus and over
//! the port's live entries, and compares all that can be seen.

mod board;
#[path = "../common/mod.rs"]
mod common;
mod counts;
mod faults;
mod hand;
mod live;
mod machine;
#[path = "../bus/map.rs"]
#[allow(dead_code)]
mod map;
#[path = "../script/memories.rs"]
#[allow(dead_code)]
mod memories;
mod note;
mod pair;
mod port;
mod port_board;
mod programs;
mod times;
mod trials;

use std::env;
use std::ops::Range;
use std::process::ExitCode;

use board::Board;
use common::device::*;
use common::full::*;
use counts::Counts;
use memories::Memories;
use pair::Pair;
use port::Port;
use programs::{Program, Start, PROGRAMS};
use times::Times;

/// What is asked for.
struct Wish {
    seeds: Range<u64>,
    instructions: u64,
    programs: Vec<&'static Program>,
}

/// What the runs of one program came to.
#[derive(Default)]
struct Row {
    counts: Counts,
    times: Times,
}

impl Wish {
    fn one_run<B: Board>(
        &self,
        seed: u64,
        start: &Start,
        program: &Program,
        board: fn(Memories) -> B,
    ) -> Row {
        let mut row = Row::default();
        match Pair::new(start, program, board).run(self.instructions) {
            Ok(outcome) => {
                row.counts = Counts::of(&outcome);
                row.times = Times::take(start, program, board, self.instructions);
            }
            Err(said) => {
                println!("DIFFERENCE: program {}, seed {seed}, {said}", program.name);
                row.counts.differences = 1;
            }
        }
        row
    }

    /// Whether there was no difference.
    fn run<B: Board>(&self, board: fn(Memories) -> B) -> bool {
        let mut rows: Vec<Row> = self.programs.iter().map(|_| Row::default()).collect();
        for seed in self.seeds.clone() {
            let start = Start::new(seed);
            for (program, row) in self.programs.iter().zip(&mut rows) {
                let one = self.one_run(seed, &start, program, board);
                row.counts = row.counts + one.counts;
                row.times = row.times + one.times;
            }
        }
        self.print(&rows)
    }

    fn print(&self, rows: &[Row]) -> bool {
        let named = || self.programs.iter().map(|program| program.name).zip(rows);
        let counts = rows.iter().fold(Counts::default(), |sum, row| sum + row.counts);
        let times = rows.iter().fold(Times::default(), |sum, row| sum + row.times);
        Counts::head();
        named().for_each(|(name, row)| row.counts.print(name));
        counts.print("all");
        Times::head();
        named().for_each(|(name, row)| row.times.print(name, row.counts.instructions));
        times.print("all", counts.instructions);
        let (seeds, programs) = (self.seeds.end - self.seeds.start, self.programs.len());
        let (instructions, differences) = (counts.instructions, counts.differences);
        println!("programs {programs}, seeds {seeds}, instructions {instructions}, differences {differences}");
        differences == 0
    }

    fn work<B: Board>(&self, what: &str, board: fn(Memories) -> B) -> bool {
        match what {
            "faults" => trials::try_all(self.seeds.start, &self.programs, board, self.instructions),
            _ => self.run(board),
        }
    }
}

fn wish(first: &str, runs: &str, instructions: &str, program: &str) -> Option<Wish> {
    let first: u64 = first.parse().ok()?;
    let wished = |one: &&Program| program.is_empty() || one.name == program;
    let programs: Vec<&Program> = PROGRAMS.iter().filter(wished).collect();
    (!programs.is_empty()).then_some(Wish {
        seeds: first..first + runs.parse::<u64>().ok()?,
        instructions: instructions.parse().ok()?,
        programs,
    })
}

fn main() -> ExitCode {
    let arguments: Vec<String> = env::args().skip(1).collect();
    let words: Vec<&str> = arguments.iter().map(String::as_str).collect();
    let &[what, first, runs, instructions, way, program] = &words[..] else {
        println!("usage: run|faults SEED RUNS INSTRUCTIONS direct|entries PROGRAM");
        return ExitCode::from(2);
    };
    let Some(wish) = wish(first, runs, instructions, program) else {
        let names: Vec<&str> = PROGRAMS.iter().map(|program| program.name).collect();
        println!("compare: no program {program}; there are {}", names.join(", "));
        return ExitCode::from(2);
    };
    let agreed = match way {
        "entries" => wish.work(what, Port::<true>::new),
        _ => wish.work(what, Port::<false>::new),
    };
    if agreed {
        ExitCode::SUCCESS
    } else {
        ExitCode::FAILURE
    }
}
