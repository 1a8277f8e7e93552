//! The steps of a list and their answers, each a line of one width. Which
//! steps there are, a device says; looks and puts have the same kinds for all.

use std::fmt;

// Both are for tests only: they reach what no register shows.
pub const LOOK: u64 = 0xB;
pub const PUT: u64 = 0xC;

#[derive(Clone, Copy)]
pub struct Step {
    pub kind: u64,
    pub address: u64,
    pub value: u64,
}

/// A refusal's number, 0 for done, and three words; unused ones are 0.
#[derive(Clone, Copy, PartialEq, Eq, Debug)]
pub struct Answer {
    pub refusal: u8,
    pub words: [u64; 3],
}

pub const DONE: Answer = words(0, 0, 0);

pub const fn words(a: u64, b: u64, c: u64) -> Answer {
    Answer { refusal: 0, words: [a, b, c] }
}

pub fn refused(refusal: u8) -> Answer {
    Answer { refusal, ..DONE }
}

/// Something that works steps and answers them.
pub trait Device {
    /// The kinds that do something; any other does nothing or ends the list.
    const KINDS: &'static [u64];

    fn start() -> Self;

    /// A step that ends the list, and is not answered. A program that writes
    /// lists does not ask.
    fn ends(_step: Step) -> bool {
        false
    }

    /// A step that a list may hold. One that it may not is neither written nor
    /// worked. A program that answers lists does not ask.
    fn has(_step: Step) -> bool {
        true
    }

    fn answer(&mut self, step: Step) -> Answer;

    /// Counts of what it has done, by their names, for the report of a list.
    fn counts(&self) -> Vec<(&'static str, u64)> {
        Vec::new()
    }
}

impl fmt::Display for Answer {
    fn fmt(&self, f: &mut fmt::Formatter) -> fmt::Result {
        let [a, b, c] = self.words;
        write!(f, "{:02x} {a:016x} {b:016x} {c:016x}", self.refusal)
    }
}

impl fmt::Display for Step {
    fn fmt(&self, f: &mut fmt::Formatter) -> fmt::Result {
        write!(f, "{:02x} {:08x} {:016x}", self.kind, self.address, self.value)
    }
}
