//! Answers a step list by the Rust flash device itself: document 000,
//! included unchanged. Standard input holds one step a line: `+` selects, `-`
//! deselects, two lowercase hex digits transfer a byte.

use crate::common::numbers::{FLASH_SELECTED, SPIFC_ANSWER, SPIFC_SELECT, SPIFC_SEND};
#[path = "../common/mod.rs"]
mod common;

use std::io::{self, BufRead, BufWriter, Write};

use common::device::*;
use common::small::*;
use cpu::Bus;
use sys::System;

enum Step {
    Select,
    Deselect,
    Transfer(u8),
}

fn digit(character: u8) -> Option<u8> {
    match character {
        b'0'..=b'9' => Some(character - b'0'),
        b'a'..=b'f' => Some(character - b'a' + 10),
        _ => None,
    }
}

fn parse(line: &[u8]) -> Option<Step> {
    match *line {
        [b'+'] => Some(Step::Select),
        [b'-'] => Some(Step::Deselect),
        [high, low] => Some(Step::Transfer(digit(high)? << 4 | digit(low)?)),
        _ => None,
    }
}

fn step(system: &mut System, step: Step, out: &mut impl Write) -> io::Result<()> {
    match step {
        Step::Select => system.write32(SPIFC_SELECT, FLASH_SELECTED),
        Step::Deselect => system.write32(SPIFC_SELECT, 0),
        Step::Transfer(byte) => {
            system.write32(SPIFC_SEND, byte.into());
            writeln!(out, "{:02x}", system.read32(SPIFC_ANSWER))?;
        }
    }
    Ok(())
}

fn end(system: &System, out: &mut impl Write) -> io::Result<()> {
    let flash = &system.flash;
    let written = system.ram[..FLASH_SIZE].iter().filter(|&&b| b != 0xFF).count();
    writeln!(out, "end {} {} {}", u8::from(flash.wel), flash.writes, written)
}

fn main() -> io::Result<()> {
    let mut input = io::stdin().lock();
    let mut out = BufWriter::new(io::stdout().lock());
    let mut system = fresh(&[0xFF; FLASH_SIZE]);
    let mut line = Vec::new();
    for number in 1u64.. {
        line.clear();
        if input.read_until(b'\n', &mut line)? == 0 {
            break;
        }
        if line.last() == Some(&b'\n') {
            line.pop();
        }
        match parse(&line) {
            Some(known) => step(&mut system, known, &mut out)?,
            None => {
                writeln!(out, "bad {number}")?;
                return out.flush();
            }
        }
    }
    end(&system, &mut out)?;
    out.flush()
}
