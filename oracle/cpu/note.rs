//! What a side notes while it runs, to be compared with the other's.

use std::fmt;

use crate::board::{Board, Clocks, Counters, Event};
use crate::cpu::{Fault, STATE_WORDS};

#[derive(Clone, Debug, PartialEq)]
pub enum Note {
    /// After an advance, and at the end.
    Look(Look),
    /// The number of an interrupt that is taken.
    Taken(u32),
    /// All registers of all modes.
    State([u32; STATE_WORDS], Option<Fault>),
    Sound(Event),
    /// Bits of the time that an idle processor jumps to.
    Jump(u64),
}

/// What a host can ask of the devices.
#[derive(Clone, Debug, PartialEq)]
pub struct Look {
    next_bits: u64,
    pending: u32,
    wanted: bool,
    keys: u32,
    counters: Counters,
    clocks: Clocks,
}

impl Look {
    pub fn at(board: &mut impl Board) -> Look {
        Look {
            next_bits: board.next_event().to_bits(),
            pending: board.pending_irq(),
            wanted: board.irq_wanted(),
            keys: board.keys_held(),
            counters: board.counters(),
            clocks: board.clocks(),
        }
    }
}

const OTHERS: [&str; STATE_WORDS - 16] = [
    "cpsr", "r13", "r14", "r13_fiq", "r14_fiq", "r13_irq", "r14_irq", "r13_svc", "r14_svc",
    "r13_abt", "r14_abt", "r13_und", "r14_und", "r8_usr", "r9_usr", "r10_usr", "r11_usr",
    "r12_usr", "r8_fiq", "r9_fiq", "r10_fiq", "r11_fiq", "r12_fiq", "spsr", "spsr_fiq", "spsr_irq",
    "spsr_svc", "spsr_abt", "spsr_und",
];

fn name(word: usize) -> String {
    match word.checked_sub(16) {
        None => format!("r{word}"),
        Some(other) => OTHERS[other].to_string(),
    }
}

/// Two notes that are not the same; one is missing where a side has fewer.
#[derive(Clone)]
pub struct Difference {
    pub rust: Option<Note>,
    pub port: Option<Note>,
}

impl fmt::Display for Difference {
    fn fmt(&self, f: &mut fmt::Formatter) -> fmt::Result {
        match (&self.rust, &self.port) {
            (Some(Note::State(rust, stop)), Some(Note::State(port, other))) => {
                for word in (0..STATE_WORDS).filter(|&word| rust[word] != port[word]) {
                    let (rust, port) = (rust[word], port[word]);
                    write!(f, "{}: Rust {rust:08x}, port {port:08x}; ", name(word))?;
                }
                write!(
                    f,
                    "pc {:08x} and {:08x}, faults {stop:x?} and {other:x?}",
                    rust[15], port[15]
                )
            }
            (rust, port) => write!(f, "Rust {rust:x?}, port {port:x?}"),
        }
    }
}

/// The first place at which the notes part.
pub fn first_difference(rust: &[Note], port: &[Note]) -> Option<Difference> {
    if rust == port {
        return None;
    }
    let at = (0..).find(|&at| rust.get(at) != port.get(at))?;
    Some(Difference { rust: rust.get(at).cloned(), port: port.get(at).cloned() })
}
