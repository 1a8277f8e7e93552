//! The programs, and what one run of a program starts with.

use crate::board::Board;
use crate::common::edges::fraction;
use crate::common::numbers::{SRAM_BASE, SYSCLK_VAR};
use crate::common::random::Random;
use crate::machine::{Machine, CPU_HZ};
use crate::memories::Memories;

pub struct Program {
    pub name: &'static str,
    words: &'static str,
}

macro_rules! programs {
    ($($name:literal)*) => {
        &[$(Program {
            name: $name,
            words: include_str!(concat!("programs/", $name, ".words")),
        }),*]
    };
}

pub const PROGRAMS: &[Program] = programs! {
    "timers" "day" "panel" "adc" "flash" "sound" "chip" "keys" "words"
    "copies" "thumb" "modes" "idle" "power" "wild" "mixture"
};

impl Program {
    fn bytes(&self) -> Vec<u8> {
        let word = |text| u32::from_str_radix(text, 16).expect("a word in hex").to_le_bytes();
        self.words.split_whitespace().flat_map(word).collect()
    }
}

/// Where programs draw their numbers from, as `programs/common.inc` has it.
pub const SEEDS: u32 = 0x2090_0000;
pub const SEEDS_BYTES: usize = 0x4000;

/// Clocks of the system, 0 being the device's own.
const CLOCKS: [u32; 6] = [0, 1_000_000, 12_345_678, 24_000_000, 48_000_000, 96_000_000];

/// Seconds that have passed before the first instruction.
const STARTS: [f64; 6] = [0.0, 0.0, 59.99, 86_399.9, 1_000_000.25, 2_000_000.0];

/// What the seed says of a run, whatever the program.
pub struct Start {
    seed: u64,
    executed: u64,
    picture: Memories,
}

impl Start {
    /// All four memories hold the seed's numbers, for programs draw from them.
    pub fn new(seed: u64) -> Start {
        let mut random = Random::new(seed);
        let mut picture = Memories::zero();
        for eight in picture.0.iter_mut().flat_map(|memory| memory.chunks_exact_mut(8)) {
            eight.copy_from_slice(&random.next().to_le_bytes());
        }
        let at = (SYSCLK_VAR - SRAM_BASE) as usize;
        picture.0[1][at..at + 4].copy_from_slice(&random.pick(&CLOCKS).to_le_bytes());
        let seconds = random.pick(&STARTS) + fraction(&mut random);
        Start { seed, executed: (seconds * CPU_HZ) as u64, picture }
    }

    /// A machine with the program at the beginning of RAM.
    pub fn machine<B: Board>(
        &self,
        program: &Program,
        board: impl FnOnce(Memories) -> B,
    ) -> Machine<B> {
        let mut memories = self.picture.clone();
        let code = program.bytes();
        memories.0[0][..code.len()].copy_from_slice(&code);
        // Each program has its own hand.
        let letters = program.name.bytes().map(u64::from);
        let hand = letters.fold(self.seed, |sum, byte| sum.wrapping_mul(31).wrapping_add(byte));
        Machine::new(board(memories), self.executed, hand)
    }
}
