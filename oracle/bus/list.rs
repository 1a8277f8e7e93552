//! A list for the whole bus being written: its steps by their names.

use super::kinds::*;
use super::map::{merged, others, own_words, passes_end, NEVER_STORED};
use super::steps::Board;
use crate::common::numbers::{FRAMEBUFFER_BYTES, INTC_PENDING, LCD_CONTROL, LCD_DMA, START_DMA};
use crate::common::step::{Answer, DONE};
use crate::common::step_list::StepList;
use crate::sys::System;

pub type List = StepList<Board>;

impl List {
    pub fn system(&self) -> &System {
        &self.device.system
    }

    pub fn now(&self) -> f64 {
        self.system().now
    }

    /// The step, unless it would pass the end of a short memory.
    fn step_within(&mut self, length: u32, kind: u64, address: u32, value: u64) -> Answer {
        if passes_end(address, length) {
            return DONE;
        }
        self.step(kind, address.into(), value)
    }

    pub fn read_sized(&mut self, size: u64, address: u32) -> Answer {
        let length = u32::from(size == 1);
        self.step_within(length, READ + size, address, 0)
    }

    pub fn write_sized(&mut self, size: u64, address: u32, value: u32) -> Answer {
        if self.starts_long_dma(size, address, value) {
            return DONE;
        }
        let length = u32::from(size == 1);
        self.step_within(length, WRITE + size, address, value.into())
    }

    /// Whether the write starts a DMA that would pass the end of a memory.
    fn starts_long_dma(&self, size: u64, address: u32, value: u32) -> bool {
        let control = merged(self.system(), address, size, value);
        address & !3 == LCD_CONTROL
            && control & 0xF1 == START_DMA
            && passes_end(self.system().reg(LCD_DMA), FRAMEBUFFER_BYTES as u32)
    }

    pub fn read(&mut self, address: u32) -> Answer {
        self.read_sized(4, address)
    }

    pub fn write(&mut self, address: u32, value: u32) -> Answer {
        self.write_sized(4, address, value)
    }

    pub fn advance(&mut self, to: f64) -> Answer {
        self.step(ADVANCE, 0, to.to_bits())
    }

    /// By so many seconds.
    pub fn pass(&mut self, seconds: f64) -> Answer {
        self.advance(self.now() + seconds)
    }

    pub fn next(&mut self) -> Answer {
        self.step(NEXT, 0, 0)
    }

    pub fn pending(&mut self) -> Answer {
        self.step(PENDING, 0, 0)
    }

    pub fn turbo(&mut self, turbo: f64) -> Answer {
        self.step(TURBO, 0, turbo.to_bits())
    }

    pub fn live(&mut self, key: u64, down: u64) -> Answer {
        self.step(LIVE, key, down)
    }

    pub fn hold(&mut self, key: u64, until: f64) -> Answer {
        self.step(HOLD, key, until.to_bits())
    }

    pub fn press(&mut self, key: u64, time: f64) -> Answer {
        self.step(PRESS, key, time.to_bits())
    }

    pub fn take(&mut self) -> Answer {
        self.step(TAKE, 0, 0)
    }

    pub fn counters(&mut self) -> Answer {
        self.step(COUNTERS, 0, 0)
    }

    pub fn pixel(&mut self, at: u32) -> Answer {
        self.step(PIXEL, at.into(), 0)
    }

    pub fn wipe(&mut self) -> Answer {
        self.step(WIPE, 0, 0)
    }

    pub fn peek8(&mut self, address: u32) -> Answer {
        self.step_within(1, PEEK8, address, 0)
    }

    pub fn peek32(&mut self, address: u32) -> Answer {
        self.step_within(4, PEEK32, address, 0)
    }

    pub fn poke(&mut self, address: u32, value: u32) -> Answer {
        self.step_within(4, POKE, address, value.into())
    }

    pub fn keys(&mut self) -> Answer {
        self.step(KEYS, 0, 0)
    }

    pub fn wanted(&mut self) -> Answer {
        self.step(WANTED, 0, 0)
    }

    pub fn block(&mut self, address: u32, length: u64) -> Answer {
        self.step_within((length % 65_537) as u32, BLOCK, address, length)
    }

    pub fn digest(&mut self, memory: u64) -> Answer {
        self.step(DIGEST, memory, 0)
    }

    pub fn waiting(&self) -> usize {
        self.system().sound.events.len()
    }

    /// How many places for other words are taken.
    pub fn taken(&self) -> usize {
        others(self.system()).len()
    }

    /// Interrupts, each way to ask for them.
    pub fn lines(&mut self) {
        self.pending();
        self.read(INTC_PENDING);
        self.wanted();
    }

    /// All that can be seen without changing it.
    pub fn look_state(&mut self) {
        for memory in 0..4 {
            self.digest(memory);
        }
        self.counters();
        self.lines();
        self.keys();
        self.next();
    }

    pub fn look_words(&mut self) {
        for word in own_words().chain(NEVER_STORED) {
            self.read(word);
        }
    }

    /// The other words that are not zero, and the events that wait.
    pub fn look_rest(&mut self) {
        for word in others(self.system()) {
            self.read(word);
        }
        while self.take().refusal == 0 {}
    }
}
