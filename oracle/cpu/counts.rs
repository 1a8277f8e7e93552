//! What the runs of a program came to, as a table.

use std::ops::Add;

use crate::machine::NUMBERS;
use crate::pair::Outcome;

#[derive(Clone, Copy, Default)]
pub struct Counts {
    pub instructions: u64,
    interrupts: [u64; 4],
    skips: u64,
    registers: u64,
    frames: u64,
    flash_writes: u64,
    events: u64,
    pub differences: u64,
}

impl Counts {
    pub fn of(outcome: &Outcome) -> Counts {
        Counts {
            instructions: outcome.tally.instructions,
            interrupts: outcome.tally.interrupts,
            skips: outcome.tally.skips,
            registers: outcome.registers,
            frames: outcome.counters.frames,
            flash_writes: outcome.counters.flash_writes,
            events: outcome.tally.events,
            differences: 0,
        }
    }

    pub fn head() {
        let [one, two, three, four] = NUMBERS.map(|number| format!("irq {number}"));
        println!(
            "{:<10}{:>13}{one:>8}{two:>8}{three:>8}{four:>8}{:>9}{:>11}{:>8}{:>8}{:>8}{:>13}",
            "program",
            "instructions",
            "skips",
            "registers",
            "frames",
            "flash",
            "events",
            "differences"
        );
    }

    pub fn print(&self, name: &str) {
        let [one, two, three, four] = self.interrupts;
        println!(
            "{name:<10}{:>13}{one:>8}{two:>8}{three:>8}{four:>8}{:>9}{:>11}{:>8}{:>8}{:>8}{:>13}",
            self.instructions,
            self.skips,
            self.registers,
            self.frames,
            self.flash_writes,
            self.events,
            self.differences
        );
    }
}

impl Add for Counts {
    type Output = Counts;

    fn add(self, other: Counts) -> Counts {
        Counts {
            instructions: self.instructions + other.instructions,
            interrupts: std::array::from_fn(|at| self.interrupts[at] + other.interrupts[at]),
            skips: self.skips + other.skips,
            registers: self.registers + other.registers,
            frames: self.frames + other.frames,
            flash_writes: self.flash_writes + other.flash_writes,
            events: self.events + other.events,
            differences: self.differences + other.differences,
        }
    }
}
