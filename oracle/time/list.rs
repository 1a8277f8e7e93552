//! A list for the time devices being written.

use crate::common::step::Answer;
use crate::common::step_list::StepList;
use crate::steps::*;
use crate::sys::System;

pub type List = StepList<System>;

impl List {
    pub fn read(&mut self, address: u32) -> Answer {
        self.step(READ, address.into(), 0)
    }

    pub fn write(&mut self, address: u32, value: u32) -> Answer {
        self.step(WRITE, address.into(), value.into())
    }

    pub fn advance(&mut self, to: f64) -> Answer {
        self.step(ADVANCE, 0, to.to_bits())
    }

    pub fn turbo(&mut self, turbo: f64) -> Answer {
        self.step(TURBO, 0, turbo.to_bits())
    }

    pub fn take(&mut self) -> Answer {
        self.step(TAKE, 0, 0)
    }

    pub fn clock(&mut self, word: u32) -> Answer {
        self.step(CLOCK, 0, word.into())
    }

    pub fn put_number(&mut self, at: u64, number: f64) -> Answer {
        self.put(at, number.to_bits())
    }

    pub fn waiting(&self) -> usize {
        self.device.sound.events.len()
    }

    /// A look at everything, and all events and one more taken, so that equal
    /// answers mean equal states.
    pub fn end(&mut self) {
        self.begin("ending");
        for at in 0x0..=0xC {
            self.look(at);
        }
        while self.take().refusal == 0 {}
    }
}
