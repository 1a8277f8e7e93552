//! The families for timers, and for the sound that follows one of them.

use super::families::Author;
use super::list::List;
use super::map::TONE_WORDS;
use crate::common::device::timer_word;
use crate::common::edges::{fraction, CLOCKS, RELOADS, SOUND_RELOADS};
use crate::common::numbers::*;

/// Rate, run, interrupt, pending: the control bits that do something.
const CONTROLS: [u32; 10] =
    [0, 0x2000, 0x2001, 0x4000, 0x6000, 0x6001, 0x8000, 0xA001, 0xE000, 0xE001];

pub fn timers(author: &mut Author) {
    let n = author.random.below(TIMER_COUNT);
    match author.random.below(14) {
        0..=2 => author.set_up(n),
        3 => {
            let control = author.value(&CONTROLS);
            author.put_part(timer_word(n, CONTROL_AT), control);
        }
        4 => {
            let reload = author.value(&RELOADS);
            author.put_part(timer_word(n, RELOAD_AT), reload);
        }
        5 => author.change_clock(),
        6 => author.other_timer_word(n),
        7 => author.acknowledge(n),
        _ => author.timer_passes(n),
    }
    author.get(timer_word(n, CONTROL_AT));
    author.get(timer_word(n, COUNTER_AT));
}

pub fn sound(author: &mut Author) {
    match author.random.below(16) {
        0..=2 => author.reload(),
        3..=6 => author.compare(),
        7..=9 => {
            let control = author.value(&CONTROLS);
            author.put_part(timer_word(SOUND_TIMER, CONTROL_AT), control);
        }
        10 => {
            author.change_clock();
            // Another timer is no reason to look at the tone again.
            let n = author.random.pick(&[0, 3, 5]);
            author.put_once(timer_word(n, CONTROL_AT), 0x2000);
            author.same_again();
        }
        11 => author.same_again(),
        12 => author.pass(),
        13 => author.takes(),
        14 if author.random.one_in(6) => author.full_store(),
        _ => author.timer_passes(SOUND_TIMER),
    }
    let word = author.random.pick(&TONE_WORDS);
    author.get(word);
}

impl Author {
    pub fn set_up(&mut self, n: usize) {
        let reload = self.value(&RELOADS);
        self.put(timer_word(n, RELOAD_AT), reload);
        self.put(timer_word(n, CONTROL_AT), 0);
        let control = self.value(&CONTROLS) | 0x2000;
        self.put_once(timer_word(n, CONTROL_AT), control);
    }

    /// The clock is a word of SRAM as any other.
    pub fn change_clock(&mut self) {
        let clock = self.value(&CLOCKS);
        match self.random.below(4) {
            0 => self.put_part(SYSCLK_VAR, clock),
            1 => {
                self.list.poke(SYSCLK_VAR, clock);
            }
            _ => self.put(SYSCLK_VAR, clock),
        }
    }

    /// A word that is only stored; the counter's shows while the timer stands.
    fn other_timer_word(&mut self, n: usize) {
        let word = self.random.pick(&[0x04, COMPARE_AT, COUNTER_AT, 0x14, 0x18, 0x1C]);
        let value = self.bits();
        self.put_part(timer_word(n, word), value);
        self.get(timer_word(n, word));
    }

    fn acknowledge(&mut self, n: usize) {
        let control = self.list.system().reg(timer_word(n, CONTROL_AT));
        self.list.lines();
        self.put_once(timer_word(n, CONTROL_AT), control | 0x8000);
        self.list.lines();
    }

    /// To about the end of a period or of a count.
    pub fn timer_passes(&mut self, n: usize) {
        let edge = self.timer_edge(n);
        match self.random.below(4) {
            0 => self.pass(),
            _ if edge <= LAST_TIME => {
                let time = self.about(edge);
                self.go(time);
            }
            _ => self.pass(),
        }
        self.list.pending();
    }

    fn timer_edge(&mut self, n: usize) -> f64 {
        let counts = self.random.one_in(4);
        let more = self.random.pick(&[0.0, 1.0, 1.0, 2.0, 777.0]);
        let system = self.list.system();
        let slow = system.reg(timer_word(n, CONTROL_AT)) & 1 != 0;
        let rate = system.sysclk() / if slow { 256.0 } else { 2.0 };
        let length = if counts { 1.0 } else { system.timer_period(n) as f64 };
        let start = system.timers[n].start;
        let gone = ((system.now - start) * rate / length).max(0.0).floor();
        start + (gone + more) * length / rate
    }

    fn reload(&mut self) {
        let high = if self.random.one_in(3) { self.bits() << 16 } else { 0 };
        let reload = self.value(&SOUND_RELOADS) & 0xFFFF | high;
        self.put_part(timer_word(SOUND_TIMER, RELOAD_AT), reload);
    }

    /// Compares whose duty is about one of its ends, or plain ones.
    fn compare(&mut self) {
        let period = self.list.system().timer_period(SOUND_TIMER) as f64;
        let part = self.random.pick(&[0.05, 0.95, 0.5, 1.0]);
        let high = (period * part) as u32 + self.random.below(4) as u32;
        let compare = 0x1_0001u32.wrapping_sub(high);
        let compare = self.value(&[compare, compare & 0xFFFF, 0, 0xFFFF]);
        self.put_once(timer_word(SOUND_TIMER, COMPARE_AT), compare);
    }

    /// The same tone, unless the clock has changed meanwhile.
    fn same_again(&mut self) {
        let word = self.random.pick(&TONE_WORDS);
        let value = self.list.system().reg(word);
        self.put_once(word, value);
    }

    fn takes(&mut self) {
        for _ in 0..self.random.between(1, 8) {
            self.list.take();
        }
    }

    /// What goes on while all places are taken, and about that.
    fn full_store(&mut self) {
        let first = fraction(&mut self.random);
        fill_events(&mut self.list, (first * 60_000.0) as u32);
        for _ in 0..self.random.between(16, 40) {
            match self.random.below(10) {
                0..=2 => self.put_part_of_tone(),
                3 => self.same_again(),
                4 => self.reload(),
                5 => self.compare(),
                6 => self.other_timer_word(SOUND_TIMER),
                7 => self.change_clock(),
                8 => self.timer_passes(SOUND_TIMER),
                _ => {
                    self.list.take();
                }
            }
            let word = self.random.pick(&TONE_WORDS);
            self.get(word);
        }
    }

    fn put_part_of_tone(&mut self) {
        let (word, value) = (self.random.pick(&TONE_WORDS), self.bits());
        self.put_part(word, value);
    }
}

/// Writes tones until all places are taken.
pub fn fill_events(list: &mut List, first: u32) {
    list.write(timer_word(SOUND_TIMER, CONTROL_AT), 0x6000);
    let mut reload = first;
    while list.waiting() < SOUND_PLACES {
        list.write_sized(2, timer_word(SOUND_TIMER, RELOAD_AT), reload);
        reload += 1;
    }
}
