//! The family for wipes: whatever came before, nothing is left of it.

use super::cases::look_stored;
use super::clocks::rtc_read;
use super::families::{Author, FAMILIES};
use super::flash::frame;
use super::limits::TAME;
use super::list::List;
use super::panel::command;
use crate::common::device::timer_word;
use crate::common::numbers::*;

pub fn wipes(author: &mut Author) {
    for _ in 0..author.random.between(1, 4) {
        FAMILIES[author.random.below(TAME)].act(author);
    }
    author.list.begin("wipes");
    author.leave_something();
    author.list.wipe();
    probe(&mut author.list);
}

impl Author {
    /// State that the first steps after a wipe would show.
    fn leave_something(&mut self) {
        let bytes = self.data(3);
        match self.random.below(8) {
            0 => self.list.write(ADC_CONTROL, 0x4000),
            1 => {
                command(&mut self.list, COLUMNS, &[0, bytes[0] % 128, 0, 127]);
                self.list.counters()
            }
            2 => {
                command(&mut self.list, PAINT, &bytes);
                self.list.counters()
            }
            3 => {
                frame(&mut self.list, &[0x06]);
                self.list.write(SPIFC_SELECT, FLASH_SELECTED)
            }
            4 => {
                self.list.press(2, 0.3);
                self.list.live(1, 1);
                self.list.pass(0.0)
            }
            5 => self.list.write(timer_word(SOUND_TIMER, 0), 0x2000),
            6 => {
                self.list.write(RTC_ADDRESS, 0x15);
                self.list.write(RTC_DATA, bytes[0].into());
                self.list.write(RTC_COMMAND, 1);
                rtc_read(&mut self.list, 0x15)
            }
            _ => self.list.pass(0.1),
        };
    }
}

/// The fresh state, by as few steps as show each part of it.
pub fn probe(list: &mut List) {
    list.look_state();
    look_stored(list);
    list.take();
    for word in [SPIFC_ANSWER, RTC_OUT, RTC_SECONDS] {
        list.read(word);
    }
    for register in [0x15, 0x30, 0x35, 0x40] {
        rtc_read(list, register);
    }
    // Data without a command, and then the whole window's first pixel.
    for two in [0x1234, 0x5678] {
        list.write(LCD_DATA, two);
        list.write(LCD_CONTROL, SEND_TWO);
    }
    command(list, PAINT, &[0xF8, 0x01]);
    list.digest(3);
    list.pixel(0);
    // Nothing is selected, so this ends nothing.
    list.write(SPIFC_SEND, 0x06);
    list.write(SPIFC_SELECT, 0);
    frame(list, &[0x05, 0]);
    // No tone was there, and no line was driven.
    list.write(timer_word(SOUND_TIMER, 0), 0);
    list.take();
    list.write(KEY_LINES, 0xE0);
    list.advance(0.35);
    list.keys();
    list.read(KEY_LINES);
    list.read(RTC_SECONDS);
    list.lines();
    list.next();
}
