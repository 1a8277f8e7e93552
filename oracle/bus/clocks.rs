//! The families for the RTC chip, the time of day, the ADC, the second serial
//! port, and power and clock switch.

use super::families::Author;
use super::list::List;
use super::map::NEVER_STORED;
use crate::common::edges::{BYTES, FIELDS};
use crate::common::numbers::*;
use crate::common::step::Answer;

pub fn rtc(author: &mut Author) {
    match author.random.below(12) {
        0..=2 => {
            let register = author.next_turn(256) as u8;
            author.rtc_register(register);
        }
        3 | 4 => author.stage(),
        5 => author.rtc_register(0x00),
        6 => {
            let register = author.random.pick(&[0x20, 0x21, 0x22, 0x23, 0x24, 0x25, 0x40, 0x50]);
            author.rtc_register(register);
        }
        7 => author.rtc_words(),
        8 => author.change_turbo(),
        _ => author.rtc_passes(),
    }
}

pub fn clock(author: &mut Author) {
    match author.random.below(8) {
        0..=2 => {
            let (word, value) = (author.random.pick(&NEVER_STORED), author.value(&FIELDS));
            author.put_part(word, value);
        }
        3 => {
            let word = author.random.pick(&NEVER_STORED);
            author.list.peek32(word);
            author.get_part(word);
        }
        4 => author.change_turbo(),
        _ => author.day_passes(),
    }
    for word in NEVER_STORED {
        author.get(word);
    }
    author.list.read(RTC_IRQ_STATUS);
}

pub fn adc(author: &mut Author) {
    let bits = [0x10, 0x20, 0x40, 0x80, 0x4000, 0x8000];
    let mut control = 0;
    for bit in bits {
        control |= bit * author.random.below(2) as u32;
    }
    let control = author.value(&[control, control, control, 0x4040, 0xC0C0]);
    if author.random.one_in(4) {
        author.put_part(ADC_CONTROL, control);
    } else {
        author.put_once(ADC_CONTROL, control);
    }
    author.list.next();
    if author.random.one_in(6) {
        author.put_part(ADC_RESULT, control);
    }
    if author.random.one_in(2) {
        author.pass();
    }
    author.get(ADC_CONTROL);
    author.get(ADC_RESULT);
    author.list.lines();
}

/// A read of the value clears bits beside it; a peek does not.
pub fn spi2(author: &mut Author) {
    let word = author.random.pick(&[SPI2_SEND, SPI2_STATUS, SPI2_ANSWER]);
    match author.random.below(4) {
        0 | 1 => {
            let value = author.bits();
            author.put_part(word, value);
        }
        2 => {
            let at = author.random.below(4) as u32;
            author.list.peek8(SPI2_ANSWER + at);
        }
        _ => author.get_part(SPI2_ANSWER),
    }
    for word in [SPI2_STATUS, SPI2_ANSWER, SPI2_STATUS] {
        author.get(word);
    }
    author.list.peek32(SPI2_SEND);
}

pub fn power(author: &mut Author) {
    let value = author.value(&[1, 3, 0x8000, 0x8001, 0xFFFF_FFFF]);
    match author.random.below(6) {
        0 | 1 => author.put_part(CLOCK_SWITCH, value),
        2 => author.put_part(CLOCK_STATUS, value),
        3 | 4 => author.put_part(POWER_REG, value | 1),
        _ => author.put_part(POWER_REG, value),
    }
    author.get(CLOCK_STATUS);
    author.get(POWER_REG);
    author.list.peek32(CLOCK_STATUS);
    author.list.counters();
    if author.list.system().powered_off && author.random.one_in(4) {
        author.pass();
        author.list.lines();
        author.list.wipe();
    }
}

/// Writes the chip's register.
pub fn rtc_write(list: &mut List, register: u32, data: u32) {
    list.write(RTC_ADDRESS, register);
    list.write(RTC_DATA, data);
    list.write(RTC_COMMAND, 1);
}

pub fn rtc_read(list: &mut List, register: u32) -> Answer {
    list.write(RTC_ADDRESS, register);
    list.write(RTC_COMMAND, 2);
    list.read(RTC_OUT)
}

impl Author {
    fn rtc_put(&mut self, word: u32, byte: u8) {
        let above = if self.random.one_in(4) { self.bits() << 8 } else { 0 };
        self.put_once(word, above | u32::from(byte));
    }

    /// Any write to the word gives the command that it then holds.
    fn rtc_command(&mut self, command: u32) {
        let same = self.list.system().reg(RTC_COMMAND) & 3 == command & 3;
        if same && self.random.one_in(2) {
            let (at, value) = (self.random.between(1, 3) as u32, self.bits());
            self.list.write_sized(1, RTC_COMMAND + at, value);
        } else {
            self.put_once(RTC_COMMAND, command);
        }
    }

    fn rtc_write(&mut self, register: u8) {
        let (any, edge) = (self.random.byte(), self.random.pick(&BYTES));
        let data = self.random.pick(&[any, edge]);
        self.rtc_put(RTC_ADDRESS, register);
        self.rtc_put(RTC_DATA, data);
        let command = self.random.pick(&[1, 1, 1, 3, 0xFFFF_FFF1]);
        self.rtc_command(command);
    }

    fn rtc_read(&mut self, register: u8) {
        self.rtc_put(RTC_ADDRESS, register);
        let command = self.random.pick(&[2, 2, 2, 0xFFFF_FFF2, 0]);
        self.rtc_command(command);
        self.get(RTC_OUT);
    }

    fn rtc_register(&mut self, register: u8) {
        self.rtc_write(register);
        self.rtc_read(register);
    }

    /// Only the last register latches, whatever the others hold by then.
    fn stage(&mut self) {
        for register in 0x10..=0x15 {
            if !self.random.one_in(4) {
                self.rtc_write(register);
            }
        }
        self.rtc_count();
    }

    fn rtc_count(&mut self) {
        for register in 0x30..=0x35 {
            self.rtc_read(register);
        }
    }

    fn rtc_words(&mut self) {
        let word = self.random.pick(&[RTC_ADDRESS, RTC_DATA, RTC_COMMAND, RTC_READY, RTC_OUT]);
        let value = self.bits();
        self.put_part(word, value);
        for word in [RTC_ADDRESS, RTC_DATA, RTC_COMMAND, RTC_READY, RTC_OUT] {
            self.get(word);
        }
        self.list.peek32(word);
    }

    fn rtc_passes(&mut self) {
        if self.random.one_in(3) {
            self.pass();
        } else {
            let more = self.random.pick(&[0.0, 1.0, 2.0, 256.0, 32_768.0]);
            let system = self.list.system();
            let gone = ((system.game_time - system.rtc.base_time) * 32768.0).floor();
            self.go_game(system.rtc.base_time + (gone + more) / 32768.0);
        }
        let register = 0x30 + self.random.below(6) as u8;
        self.rtc_read(register);
    }

    /// Across a second, a minute, an hour or midnight.
    fn day_passes(&mut self) {
        let unit = self.random.pick(&[1.0, 1.0, 60.0, 3600.0, 86_400.0]);
        let system = self.list.system();
        let base = system.rtc_irq.tod_base as f64 - system.rtc_irq.tod_set_at;
        let gone = ((base + system.game_time) / unit).floor();
        self.go_game((gone + 1.0) * unit - base);
    }
}
