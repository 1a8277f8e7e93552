//! The family for memories: sizes, alignments, ends, and what is stray.

use super::families::Author;
use super::map::passes_end;
use crate::common::numbers::*;
use crate::{RAM_SIZE, SRAM_LENGTH};

/// Addresses about the edges of what is stray, and amid it.
#[rustfmt::skip]
pub const STRAY: [u32; 27] = [
    0x0000_0000, 0x0000_0001, 0x1234_5678, FLASH_BASE - 4, FLASH_BASE - 2, FLASH_BASE - 1, RAM_END,
    RAM_END + 3, 0x8000_0000, GPIO_BASE - 2, GPIO_BASE - 1, REGISTERS_C_END, REGISTERS_C_END + 1,
    REGISTERS_D - 3, REGISTERS_D - 1, REGISTERS_D_END, REGISTERS_D_END + 2, SRAM_BASE - 1, SRAM_END,
    SRAM_END + 1, 0xF8FF_FFFF, REGISTERS_F - 3, REGISTERS_F - 1, REGISTERS_F_END,
    REGISTERS_F_END + 1, 0xFFFF_FFFD, 0xFFFF_FFFF,
];

/// Past the end of the memories where they are short, within the paper's.
#[rustfmt::skip]
const PAST: [u32; 10] = [
    FLASH_BASE + 0x1_0000, FLASH_BASE + 0x1_0003, FLASH_BASE + 0x80_0000, RAM_END - 4, RAM_END - 1,
    SRAM_BASE + 0x1_0000, SRAM_BASE + 0x1_0001, SRAM_BASE + 0x8_0000, SRAM_END - 4, SRAM_END - 1,
];

/// Where blocks begin that leave one place for another.
#[rustfmt::skip]
const SEAMS: [u32; 11] = [
    FLASH_BASE - 0x10, RAM_END, GPIO_BASE - 0x10, REGISTERS_C - 0x10, REGISTERS_C_END - 0x10,
    REGISTERS_D - 0x10, REGISTERS_D_END - 0x10, SRAM_BASE - 0x10, REGISTERS_F - 0x10,
    REGISTERS_F_END - 0x10, 0xFFFF_FFF0,
];

pub fn memory(author: &mut Author) {
    match author.random.below(12) {
        0..=4 => author.write_and_read(),
        5 => author.past_end(),
        6 => author.stray(),
        7 | 8 => author.pokes(),
        9 => author.blocks(),
        10 => {
            let (kind, memory) = (author.random.pick(&[0, 4, 0xFFFF_FFFC]), author.random.below(4));
            author.list.digest(kind + memory as u64);
        }
        _ => author.overlap(),
    }
}

impl Author {
    /// An address in a memory, often near one of its ends.
    pub fn address(&mut self) -> u32 {
        let (base, length) = self.random.pick(&[
            (FLASH_BASE, RAM_SIZE),
            (SRAM_BASE, SRAM_LENGTH),
            (GPIO_BASE, GPIO_BYTES),
        ]);
        let any = self.bits();
        let near = any % 8;
        let at = match self.random.below(4) {
            0 => near,
            1 => (length as u32 - 1).wrapping_sub(near),
            2 => any % 64 + 0x0FC0,
            _ => any,
        };
        base + at % length as u32
    }

    fn write_and_read(&mut self) {
        let (address, size, value) = (self.address(), self.size(), self.bits());
        self.list.write_sized(size, address, value);
        for _ in 0..self.random.between(1, 3) {
            let size = self.size();
            self.list.read_sized(size, address);
        }
    }

    /// Two writes that lie partly in the same bytes.
    fn overlap(&mut self) {
        let address = self.address();
        for _ in 0..2 {
            let (size, at, value) = (self.size(), self.random.below(4) as u32, self.bits());
            self.list.write_sized(size, address + at, value);
        }
        self.list.read(address);
        self.list.peek32(address);
    }

    /// Reads 0 and stores nothing; one byte would break the device's bounds.
    fn past_end(&mut self) {
        let (address, size, value) =
            (self.random.pick(&PAST), self.random.pick(&[2, 4]), self.bits());
        self.list.write_sized(size, address, value);
        self.list.read_sized(size, address);
    }

    fn stray(&mut self) {
        let (address, size, value) = (self.random.pick(&STRAY), self.size(), self.bits());
        match self.random.below(6) {
            0 => {
                let size = self.random.pick(&[0, 3, 5, 8, 15]);
                self.list.write_sized(size, address, value);
            }
            1 => {
                self.list.peek8(address);
            }
            2 => {
                self.list.peek32(address);
            }
            _ => {
                self.list.write_sized(size, address, value);
            }
        }
        self.list.read_sized(size, address);
    }

    fn pokes(&mut self) {
        let inner = self.address();
        let register = self.any_word() + self.random.below(4) as u32;
        let seam = self.random.pick(&SEAMS) + self.random.between(12, 15) as u32;
        let address = self.random.pick(&[inner, inner, register, seam]);
        let value = self.bits();
        self.list.poke(address, value);
        self.list.peek32(address);
        self.list.peek8(address);
        let size = self.size();
        self.list.read_sized(size, inner);
    }

    pub fn blocks(&mut self) {
        let (address, length) = self.block();
        self.list.block(address, length);
    }

    /// A block that stays within RAM and SRAM; over any seam it runs on.
    fn block(&mut self) -> (u32, u64) {
        let some = self.random.pick(&[0, 1, 3, 16, 64, 4096, 32_768, 65_536]);
        // Counted modulo 65,537.
        let rounds = 65_537 * self.random.pick(&[0, 0, 1, 0xFFFF_FFFF]);
        let address = match self.random.below(3) {
            0 => self.address(),
            1 => self.random.pick(&SEAMS) + self.random.below(16) as u32,
            _ => self.any_word() + self.random.below(4) as u32,
        };
        // Where they are short, both are equally so.
        let left = RAM_SIZE as u64 - u64::from(address) % RAM_SIZE as u64;
        let length = if passes_end(address, some as u32) { left.min(some) } else { some };
        (address, rounds + length)
    }
}
