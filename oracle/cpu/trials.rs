//! Tries every fault in every program.

use crate::board::Board;
use crate::common::random::Random;
use crate::faults::{Altered, FAULTS};
use crate::memories::Memories;
use crate::pair::Pair;
use crate::programs::{Program, Start};

/// So often a fault is tried in a program, each time at another place.
const TIMES: usize = 3;

#[derive(Default)]
struct Trial {
    came: usize,
    found: usize,
    missed: Vec<&'static str>,
}

impl Trial {
    fn run<B: Board>(
        &mut self,
        start: &Start,
        program: &'static Program,
        board: impl FnOnce(Memories) -> Altered<B>,
        instructions: u64,
    ) {
        let mut pair = Pair::new(start, program, board);
        let found = pair.run(instructions).is_err();
        if pair.port.board.done.get() {
            self.came += 1;
            self.found += usize::from(found);
            if !found {
                self.missed.push(program.name);
            }
        }
    }

    fn print(&self, said: &str) {
        println!("{said:<34}{:>6}{:>7}   {}", self.came, self.found, self.missed.join(" "));
    }
}

/// Whether every fault came and was found.
pub fn try_all<B: Board>(
    seed: u64,
    programs: &[&'static Program],
    board: fn(Memories) -> B,
    instructions: u64,
) -> bool {
    let start = Start::new(seed);
    let mut random = Random::new(seed);
    let mut found = 0;
    println!("{:<34}{:>6}{:>7}   not found in", "fault", "came", "found");
    for &(fault, said) in FAULTS {
        let mut trial = Trial::default();
        for program in programs.iter().flat_map(|program| [program; TIMES]) {
            let altered = |memories| Altered::new(board(memories), fault, &mut random);
            trial.run(&start, program, altered, instructions);
        }
        trial.print(said);
        found += usize::from(trial.found > 0);
    }
    println!("{} faults, {found} of them found", FAULTS.len());
    found == FAULTS.len()
}
