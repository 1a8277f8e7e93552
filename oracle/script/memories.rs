//! The four memories that a script runs over.

use crate::common::numbers::{FRAMEBUFFER_BYTES, GPIO_BYTES};
use crate::sys::System;
use crate::{RAM_SIZE, SRAM_LENGTH};

pub const NAMES: [&str; 4] = ["RAM", "SRAM", "GPIO", "framebuffer"];
pub const LENGTHS: [usize; 4] = [RAM_SIZE, SRAM_LENGTH, GPIO_BYTES, FRAMEBUFFER_BYTES];

/// RAM, SRAM, GPIO and framebuffer.
#[derive(Clone)]
pub struct Memories(pub [Vec<u8>; 4]);

impl Memories {
    pub fn zero() -> Memories {
        Memories(LENGTHS.map(|length| vec![0; length]))
    }

    pub fn have_right_lengths(&self) -> bool {
        self.0.each_ref().map(Vec::len) == LENGTHS
    }

    /// They change places with the device's own.
    pub fn swap(&mut self, system: &mut System) {
        let own = [&mut system.ram, &mut system.sram, &mut system.gpio, &mut system.lcd.fb];
        for (memory, own) in self.0.iter_mut().zip(own) {
            std::mem::swap(memory, own);
        }
    }
}
