//! The steps for the whole bus that only show something.

use std::mem;

use super::kinds::*;
use super::steps::{digest, one, Board};
use crate::common::numbers::PIXELS;
use crate::common::step::{words, Answer, DONE};

impl Board {
    pub fn show(&mut self, kind: u64, address: u32) -> Answer {
        let system = &mut self.system;
        match kind {
            PENDING => one(system.pending_irq()),
            COUNTERS => words(system.lcd.frames, system.flash.writes, system.powered_off.into()),
            PIXEL => self.pixel(address as usize % PIXELS),
            PEEK8 => one(system.peek8(address)),
            PEEK32 => one(system.peek32(address)),
            KEYS => self.keys(),
            WANTED => one(system.irq_wanted()),
            DIGEST => one(digest(self.memory(address % 4))),
            _ => DONE,
        }
    }

    /// The device knows only the colours of the whole framebuffer. For the
    /// time of the call the one pixel is all of it.
    fn pixel(&mut self, at: usize) -> Answer {
        let lcd = &mut self.system.lcd;
        let pixel = lcd.fb[2 * at..2 * at + 2].to_vec();
        let all = mem::replace(&mut lcd.fb, pixel);
        let rgb = lcd.rgb();
        lcd.fb = all;
        one(rgb.iter().fold(0, |rgb, &byte| rgb << 8 | u64::from(byte)))
    }

    fn keys(&self) -> Answer {
        let [a, b, c] = self.system.keys_held().map(u64::from);
        one(c << 2 | b << 1 | a)
    }

    fn memory(&self, number: u32) -> &[u8] {
        let system = &self.system;
        match number {
            0 => &system.ram,
            1 => &system.sram,
            2 => &system.gpio,
            _ => &system.lcd.fb,
        }
    }
}
