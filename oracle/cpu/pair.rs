//! Both sides in lockstep over the same run.

use crate::board::{original, Board, Counters};
use crate::common::numbers::*;
use crate::machine::{Machine, Tally};
use crate::map::{own_words, NEVER_STORED};
use crate::memories::{Memories, NAMES};
use crate::note::first_difference;
use crate::programs::{Program, Start};
use crate::sys::System;

/// What a run came to on both sides.
pub struct Outcome {
    pub tally: Tally,
    pub registers: u64,
    pub counters: Counters,
}

/// So many turns pass between two comparisons of GPIO, framebuffer and registers,
/// and of all memories.
const GPIO: usize = 2;
const OFTEN: u64 = 8;
const SELDOM: u64 = 400;

pub struct Pair<B> {
    rust: Machine<System>,
    pub port: Machine<B>,
    turns: u64,
}

impl<B: Board> Pair<B> {
    pub fn new(start: &Start, program: &Program, board: impl FnOnce(Memories) -> B) -> Pair<B> {
        let mut pair = Pair {
            rust: start.machine(program, original),
            port: start.machine(program, board),
            turns: 0,
        };
        pair.rust.watched = true;
        pair.port.watched = true;
        pair
    }

    /// So many instructions, or until the power is off. What differs is said.
    pub fn run(&mut self, instructions: u64) -> Result<Outcome, String> {
        while self.rust.tally.instructions < instructions && !self.rust.over() {
            let began = self.rust.tally.instructions;
            self.turn().map_err(|said| format!("after {began} instructions: {said}"))?;
        }
        if let Some(fault) = self.rust.cpu.fault {
            return Err(format!("the program ends in a fault: {fault:x?}"));
        }
        self.compare_ends()?;
        Ok(Outcome {
            tally: self.rust.tally,
            registers: self.port.board.register_accesses(),
            counters: self.rust.board.counters(),
        })
    }

    fn turn(&mut self) -> Result<(), String> {
        self.rust.turn();
        self.port.turn();
        self.compare_notes()?;
        self.turns += 1;
        if self.turns % SELDOM == 0 {
            self.compare_memories(0)?;
        }
        if self.turns % OFTEN == 0 {
            self.compare_memories(GPIO)?;
            compare_registers(&mut self.rust.board, &mut self.port.board)?;
        }
        Ok(())
    }

    fn compare_notes(&mut self) -> Result<(), String> {
        if let Some(refusal) = self.port.board.trouble() {
            let after = self.port.cpu.r[15];
            return Err(format!("{refusal}, before the instruction at {after:08x}"));
        }
        if let Some(difference) = first_difference(&self.rust.notes, &self.port.notes) {
            return Err(difference.to_string());
        }
        self.rust.notes.clear();
        self.port.notes.clear();
        Ok(())
    }

    fn compare_memories(&mut self, from: usize) -> Result<(), String> {
        let memories = self.rust.board.memories().into_iter().zip(self.port.board.memories());
        for ((rust, port), name) in memories.zip(NAMES).skip(from) {
            if rust != port {
                let at = (0..).find(|&at| rust[at] != port[at]).unwrap();
                let (rust, port) = (rust[at], port[at]);
                return Err(format!("{name} byte {at:#x}: Rust {rust:02x}, port {port:02x}"));
            }
        }
        Ok(())
    }

    fn compare_ends(&mut self) -> Result<(), String> {
        self.rust.look();
        self.port.look();
        self.compare_notes()?;
        self.compare_memories(0)?;
        if self.rust.board.screen() != self.port.board.screen() {
            return Err("the screens differ".to_string());
        }
        compare_registers(&mut self.rust.board, &mut self.port.board)?;
        compare_blocks(&mut self.rust.board, &mut self.port.board)
    }
}

/// Blocks and bytes about the ends of memories and over registers.
fn compare_blocks(rust: &mut System, port: &mut impl Board) -> Result<(), String> {
    let places =
        [FLASH_BASE, RAM_END, SRAM_BASE, SRAM_END, GPIO_BASE, REGISTERS_C, TIMER_BASE, LCD_BASE];
    for place in places {
        for at in [place, place - 8, place - 200] {
            let same = rust.block(at, 200) == port.block(at, 200);
            if !same || rust.stored_byte(at + 3) != port.stored_byte(at + 3) {
                return Err(format!("the blocks at {at:08x} differ"));
            }
        }
    }
    Ok(())
}

/// Every word that the Rust device has stored, and all that have storage of their
/// own in the port or none.
fn compare_registers(rust: &mut System, port: &mut impl Board) -> Result<(), String> {
    let known = own_words().chain(NEVER_STORED);
    let words: Vec<u32> = rust.regs.keys().copied().chain(known).collect();
    for word in words {
        let (rust, port) = (rust.stored(word), port.stored(word));
        if rust != port {
            return Err(format!("stored at {word:08x}: Rust {rust:08x}, port {port:08x}"));
        }
    }
    Ok(())
}
