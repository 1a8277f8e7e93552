//! How long an instruction takes on each side, which runs alone.

use std::ops::Add;
use std::time::{Duration, Instant};

use crate::board::{original, Board};
use crate::machine::Machine;
use crate::memories::Memories;
use crate::programs::{Program, Start};

/// Both sides run a stretch of so many instructions by turns, all of it so often,
/// and the shortest time of each stretch counts: other work on the machine only
/// makes it longer.
const STRETCH: u64 = 100_000;
const TURNS: usize = 3;

#[derive(Clone, Copy, Default)]
pub struct Times {
    rust: Duration,
    port: Duration,
}

/// To this many instructions, or until the power is off.
fn go<B: Board>(machine: &mut Machine<B>, to: u64) -> Duration {
    let began = Instant::now();
    while machine.tally.instructions < to && !machine.over() {
        machine.turn();
    }
    began.elapsed()
}

impl Times {
    pub fn take<B: Board>(
        start: &Start,
        program: &Program,
        board: fn(Memories) -> B,
        instructions: u64,
    ) -> Times {
        let mut shortest: Vec<Times> = Vec::new();
        for turn in 0..TURNS {
            let mut rust = start.machine(program, original);
            let mut port = start.machine(program, board);
            for at in 0..instructions.div_ceil(STRETCH) {
                let to = instructions.min(STRETCH * (at + 1));
                let times = Times { rust: go(&mut rust, to), port: go(&mut port, to) };
                match turn {
                    0 => shortest.push(times),
                    _ => shortest[at as usize] = shortest[at as usize].shorter(times),
                }
            }
        }
        shortest.into_iter().fold(Times::default(), Times::add)
    }

    fn shorter(self, other: Times) -> Times {
        Times { rust: self.rust.min(other.rust), port: self.port.min(other.port) }
    }

    pub fn head() {
        println!("{:<10}{:>12}{:>12}{:>8}", "ns each", "Rust", "port", "ratio");
    }

    pub fn print(&self, name: &str, instructions: u64) {
        let [rust, port] =
            [self.rust, self.port].map(|time| time.as_nanos() as f64 / instructions as f64);
        println!("{name:<10}{rust:>12.2}{port:>12.2}{:>8.3}", port / rust);
    }
}

impl Add for Times {
    type Output = Times;

    fn add(self, other: Times) -> Times {
        Times { rust: self.rust + other.rust, port: self.port + other.port }
    }
}
