//! The families for interrupts, and for the next event.

use super::families::Author;
use crate::common::device::timer_word;
use crate::common::numbers::*;

/// The bits that mask interrupts 1, 8, 27 and 29, those beside them, and some
/// that would mask them if counted otherwise.
pub const MASK_BITS: [u32; 12] = [31, 24, 5, 3, 30, 25, 4, 2, 1, 8, 27, 29];

pub fn status(author: &mut Author) {
    match author.random.below(14) {
        0 | 1 => author.raise(),
        2 => {
            let ones = author.value(&[0, 1, 2, 3, 0x0200, 0xFFFF_FFFD, u32::MAX]);
            author.put_part(RTC_IRQ_STATUS, ones);
        }
        3 | 4 => {
            let ones = author.value(&[0, 0x40, 0x2000, 0x2040, 0x20, u32::MAX]);
            author.put_part(LCD_STATUS, ones);
        }
        5 => {
            let enable = author.value(&[0, 2, 0xFFFF_FFFD, u32::MAX]);
            author.put_part(RTC_IRQ_ENABLE, enable);
        }
        6 => {
            let enable = author.value(&[0, 0x40, 0x2000, 0x2040, u32::MAX]);
            author.put_part(LCD_ENABLE, enable);
        }
        7..=9 => author.mask(),
        10 => {
            let disable = author.value(&[0, 1, 2, 3, u32::MAX]);
            author.put_part(INTC_DISABLE, disable);
            author.list.next();
        }
        11 => author.pending_words(),
        12 => author.adc_starts(),
        _ => author.pass(),
    }
    author.list.lines();
    for word in [RTC_IRQ_STATUS, LCD_STATUS] {
        author.get(word);
    }
}

/// To the next event again and again, with everything running.
pub fn next(author: &mut Author) {
    match author.random.below(10) {
        0 => author.run_all(),
        1 => author.acknowledge_all(),
        2 => author.tap(),
        3 => author.change_clock(),
        4 => author.change_turbo(),
        5 => author.adc_starts(),
        6 => author.mask(),
        7 => {
            let disable = author.random.pick(&[0, 1, 2]);
            author.put_once(INTC_DISABLE, disable);
            author.list.next();
        }
        _ => author.quiet(),
    }
    for _ in 0..author.random.between(1, 6) {
        author.go_next();
    }
}

impl Author {
    /// One of the four lines, by what raises it.
    pub fn raise(&mut self) {
        match self.random.below(4) {
            0 => {
                self.list.write(RTC_IRQ_ENABLE, 2);
                let system = self.list.system();
                self.go_game(system.game_time.floor() + 1.0);
            }
            1 => {
                let n = self.random.below(TIMER_COUNT);
                self.list.write(timer_word(n, RELOAD_AT), 0xFF00);
                self.list.write(timer_word(n, CONTROL_AT), 0);
                self.list.write(timer_word(n, CONTROL_AT), 0x6000);
                self.list.pass(0.001);
            }
            2 => {
                self.list.write(LCD_ENABLE, 0x2000);
                self.list.pass(0.017);
            }
            _ => self.adc_starts(),
        }
    }

    pub fn adc_starts(&mut self) {
        self.list.write(ADC_CONTROL, 0);
        let control = self.random.pick(&[0x4040, 0x4040, 0x4000]);
        self.put(ADC_CONTROL, control);
        self.list.next();
        if !self.random.one_in(3) {
            self.list.pass(0.0);
        }
    }

    pub fn mask(&mut self) {
        let bit = 1 << self.random.pick(&MASK_BITS);
        let mask = self.value(&[0, bit, bit, !bit, 0x8100_0028, u32::MAX]);
        self.put_part(INTC_MASK, mask);
    }

    /// What is stored there never shows in a read.
    fn pending_words(&mut self) {
        let word = self.random.pick(&[INTC_PENDING, INTC_PENDING_FIQ]);
        let value = self.bits();
        self.put_part(word, value);
        self.get(word);
        self.list.peek32(word);
    }

    fn run_all(&mut self) {
        for n in 0..TIMER_COUNT {
            if self.random.one_in(2) {
                self.set_up(n);
            }
        }
        self.list.write(RTC_IRQ_ENABLE, 2);
        self.list.write(LCD_ENABLE, 0x2040);
    }

    /// No line stays raised, so the next event lies ahead.
    fn quiet(&mut self) {
        let pending: Vec<usize> =
            (0..TIMER_COUNT).filter(|&n| self.list.system().timers[n].pending).collect();
        for n in pending {
            let control = self.list.system().reg(timer_word(n, CONTROL_AT));
            self.list.write(timer_word(n, CONTROL_AT), control | 0x8000);
        }
        self.list.write(RTC_IRQ_STATUS, u32::MAX);
        self.list.write(LCD_STATUS, u32::MAX);
        if self.list.system().pending_irq() != 0 {
            self.list.write(ADC_CONTROL, 0x8000);
        }
    }

    fn acknowledge_all(&mut self) {
        self.list.lines();
        self.quiet();
        self.list.lines();
    }

    fn go_next(&mut self) {
        let next = f64::from_bits(self.list.next().words[0]);
        let time = if self.random.one_in(2) { next } else { self.about(next) };
        self.go(time);
        self.list.lines();
        self.list.keys();
        if self.random.one_in(3) {
            self.quiet();
        }
    }
}
