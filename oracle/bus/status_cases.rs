//! Cases of the fixed list about room for other words, and about interrupts.

use super::list::List;
use super::map::{NEVER_STORED, OTHER_WORD, OWN};
use super::panel::dma;
use super::status::*;
use crate::common::device::timer_word;
use crate::common::generator::expect;
use crate::common::numbers::*;

/// Addresses of other words in all three ranges.
fn place_of(at: u32) -> u32 {
    [OTHER_WORD, 0xD020_0000, REGISTERS_F][at as usize % 3] + 4 * at
}

pub fn room(list: &mut List) {
    for at in 0..REGISTER_PLACES as u32 {
        expect(list.write(place_of(at), 1 + at), 0, [0, 0, 0]);
    }
    for word in [place_of(REGISTER_PLACES as u32), REGISTERS_D, REGISTERS_F_END - 4] {
        for (size, address, value) in [(4, word, 7), (2, word + 3, 1), (1, word + 1, 0xFF)] {
            expect(list.write_sized(size, address, value), REGISTERS_FULL, [0, 0, 0]);
        }
        // What is left of these is zero.
        for (size, address, value) in [(4, word + 3, 0x100), (2, word, 1 << 16), (4, word, 0)] {
            expect(list.write_sized(size, address, value), 0, [0, 0, 0]);
        }
        expect(list.read(word), 0, [0, 0, 0]);
    }
    needs_no_room(list);
    gives_room_back(list);
}

/// Own words, the three that are never stored, and words that have a place.
fn needs_no_room(list: &mut List) {
    for word in OWN.into_iter().step_by(3) {
        expect(list.write(word, 0x0100), 0, [0, 0, 0]);
    }
    for word in NEVER_STORED {
        expect(list.write_sized(1, word, 5), 0, [0, 0, 0]);
    }
    for timer in [0, 5] {
        expect(list.write(timer_word(timer, 0x1C), 9), 0, [0, 0, 0]);
    }
    expect(list.write_sized(1, place_of(5) + 3, 0xFE), 0, [0, 0, 0]);
    expect(list.read(place_of(5)), 0, [0xFE00_0006, 0, 0]);
    expect(list.write(place_of(REGISTER_PLACES as u32), 7), REGISTERS_FULL, [0, 0, 0]);
}

fn gives_room_back(list: &mut List) {
    for (at, size) in [(0, 4), (100, 1), (255, 2)] {
        // No value here fills more than those bytes.
        list.write_sized(size, place_of(at), 0);
        let new = place_of(300 + at);
        expect(list.write(new, 0x77), 0, [0, 0, 0]);
        expect(list.write(place_of(700), 1), REGISTERS_FULL, [0, 0, 0]);
        expect(list.write(place_of(at), 1), REGISTERS_FULL, [0, 0, 0]);
        list.read(new);
        list.read(place_of(at));
    }
    for word in [OTHER_WORD, 0xD020_0000, REGISTERS_F] {
        list.block(word, 8192);
    }
    list.wipe();
    expect(list.write(place_of(700), 1), 0, [0, 0, 0]);
    expect(list.read(place_of(5)), 0, [0, 0, 0]);
}

/// All four lines are raised.
fn raise_all(list: &mut List) {
    list.write(RTC_IRQ_ENABLE, 2);
    list.write(LCD_ENABLE, 0x2000);
    list.write(timer_word(3, RELOAD_AT), 0xFF00);
    list.write(timer_word(3, CONTROL_AT), 0x6000);
    list.write(ADC_CONTROL, 0x4040);
    list.pass(1.0);
}

/// Each combination of the four masks, and all other masks.
pub fn masks(list: &mut List) {
    expect(list.pending(), 0, [0, 0, 0]);
    raise_all(list);
    for combination in 0..16 {
        let bits = [31, 24, 5, 3].into_iter().enumerate();
        let mask = bits.map(|(at, bit)| (combination >> at & 1) << bit).sum();
        list.write(INTC_MASK, mask);
        let lines = [RTC_IRQ, TIMER_IRQ, LCD_IRQ, ADC_IRQ].into_iter().enumerate();
        let wanted = lines.filter(|(at, _)| combination >> at & 1 == 0).map(|(_, n)| n).next();
        expect(list.pending(), 0, [wanted.unwrap_or(0).into(), 0, 0]);
        if combination % 5 == 0 {
            list.read(INTC_PENDING);
        }
    }
    list.wanted();
    list.write(INTC_MASK, !0x8100_0028);
    list.pending();
    // Only bit 3 masks what is left.
    for bit in MASK_BITS[3..].iter().step_by(2) {
        list.write(INTC_MASK, 1 << bit | 0x8100_0020);
        list.pending();
    }
    list.write(INTC_MASK, 0);
    for disable in [1, 2, 3, 0xFFFF_FFFE, 0] {
        list.write(INTC_DISABLE, disable);
        list.wanted();
        list.next();
    }
    list.pending();
    for (size, at) in [(1, 0), (1, 1), (4, 0)] {
        list.write_sized(size, INTC_PENDING_FIQ + at, 0x1B1B_1B1B);
        list.read_sized(size, INTC_PENDING_FIQ + at);
        list.read_sized(size, INTC_PENDING + at);
    }
    list.peek32(INTC_PENDING_FIQ);
}

/// Each line by itself, and what puts it down again.
pub fn acknowledging(list: &mut List) {
    raise_all(list);
    for ones in [1, 0xFFFF_FFFD, 2] {
        list.write(RTC_IRQ_STATUS, ones);
        list.pending();
    }
    for control in [0x6000, 0xE000] {
        list.write(timer_word(3, CONTROL_AT), control);
        list.pending();
    }
    list.peek32(timer_word(3, CONTROL_AT));
    list.write(LCD_STATUS, 0x40);
    list.pending();
    list.write_sized(1, LCD_STATUS + 1, 0x20);
    list.lines();
    list.read(LCD_STATUS);
    for control in [0x0040, 0x8040] {
        list.write(ADC_CONTROL, control);
        list.pending();
    }
    status_words(list);
    any_timer(list);
}

/// Ones clear; a short write to the panel's status clears more.
fn status_words(list: &mut List) {
    for (size, at, ones) in [(1, 0, 0x40), (1, 3, 0), (2, 0, 0x2000)] {
        dma(list, FLASH_BASE);
        list.write(LCD_ENABLE, 0x40);
        list.pending();
        list.pass(1.0);
        for status in [LCD_STATUS, RTC_IRQ_STATUS] {
            list.write_sized(size, status + at, ones);
            list.read(status);
        }
        list.write_sized(size, RTC_IRQ_STATUS + at, 2);
        list.read(RTC_IRQ_STATUS);
    }
    // Enabled bits that are not raised, and raised ones that are not enabled.
    for (enable, word) in [(0xFFFF_FFFD, RTC_IRQ_ENABLE), (0xFFFF_DFBF, LCD_ENABLE)] {
        list.pass(1.0);
        list.write(word, enable);
        list.pending();
        list.write(word, !enable);
        list.pending();
        list.write(word, 0);
    }
}

/// Any of the six raises the line, enabled or not by then.
fn any_timer(list: &mut List) {
    for timer in 0..6 {
        list.write(timer_word(timer, RELOAD_AT), 0xF000);
        list.write(timer_word(timer, CONTROL_AT), 0x6000);
        list.pass(0.001);
        list.write(timer_word(timer, CONTROL_AT), 0);
        list.pending();
        list.write_sized(1, timer_word(timer, CONTROL_AT) + 1, 0x80);
        list.pending();
    }
}
