//! Lists for the timers, and for the sound that follows one of them.

use crate::common::device::timer_word;
use crate::common::edges::{fraction, off, CLOCKS, RELOADS, SOUND_RELOADS};
use crate::common::numbers::*;
use crate::families::Author;

/// The control bits that do something: rate, run, interrupt, pending.
const CONTROL_BITS: [u32; 4] = [0x0001, 0x2000, 0x4000, 0x8000];

/// One of the 16 combinations of the control bits.
pub fn control_bits(combination: usize) -> u32 {
    let chosen = |&(at, _): &(usize, u32)| combination >> at & 1 != 0;
    CONTROL_BITS.into_iter().enumerate().filter(chosen).map(|(_, bit)| bit).sum()
}

pub fn timers(author: &mut Author) {
    let n = author.timer();
    if !author.goes(n) && !author.random.one_in(4) {
        author.set_up(n);
    }
    match author.random.below(14) {
        0 | 1 => {
            let control = author.control();
            author.list.write(timer_word(n, CONTROL_AT), control);
            author.list.read(timer_word(n, CONTROL_AT));
        }
        2 | 3 => author.set_up(n),
        4 => author.reload(n, &RELOADS),
        5 => author.change_clock(),
        6 => author.other_word(n),
        _ => author.timer_passes(n),
    }
}

pub fn sound(author: &mut Author) {
    match author.random.below(16) {
        0..=2 => author.reload(SOUND_TIMER, &SOUND_RELOADS),
        3 => author.reload(SOUND_TIMER, &RELOADS),
        4..=7 => author.compare(),
        8..=10 => author.sound_control(),
        11 => {
            author.change_clock();
            author.same_again();
        }
        12 => author.same_again(),
        13 => author.pass(),
        14 => author.takes(),
        _ if author.random.one_in(8) => author.full_store(),
        _ => author.timer_passes(SOUND_TIMER),
    }
    if author.random.one_in(4) {
        author.list.look(0x7);
    }
}

impl Author {
    /// Mostly one that goes, if there is one.
    fn timer(&mut self) -> usize {
        let any = self.random.below(TIMER_COUNT);
        if self.random.one_in(3) {
            return any;
        }
        let mut others = (any..TIMER_COUNT).chain(0..any);
        others.find(|&n| self.goes(n)).unwrap_or(any)
    }

    /// Whether timer `n` runs and began before now.
    fn goes(&self, n: usize) -> bool {
        let device = &self.list.device;
        device.reg(timer_word(n, CONTROL_AT)) & 0x2000 != 0 && device.timers[n].start <= device.now
    }

    fn control(&mut self) -> u32 {
        let known = control_bits(self.random.below(16));
        let others = self.random.next() as u32 & !control_bits(15);
        if self.random.one_in(3) {
            known | others
        } else {
            known
        }
    }

    /// A new reload; sometimes with bits in the high half, which are not of
    /// the period.
    fn reload(&mut self, n: usize, edges: &[u32]) {
        let high = if self.random.one_in(3) { (self.random.next() as u32) << 16 } else { 0 };
        let reload = self.value(edges) & 0xFFFF | high;
        self.list.write(timer_word(n, RELOAD_AT), reload);
    }

    fn set_up(&mut self, n: usize) {
        self.reload(n, &RELOADS);
        self.list.write(timer_word(n, CONTROL_AT), 0);
        let control = self.control() | 0x2000;
        self.list.write(timer_word(n, CONTROL_AT), control);
    }

    fn change_clock(&mut self) {
        let clock = self.value(&CLOCKS);
        self.list.clock(clock);
    }

    /// A word that is only stored; the counter's shows while the timer stands.
    fn other_word(&mut self, n: usize) {
        let word =
            timer_word(n, self.random.pick(&[0x04, COMPARE_AT, COUNTER_AT, 0x14, 0x18, 0x1C]));
        let value = self.random.next() as u32;
        self.list.write(word, value);
        self.list.read(word);
    }

    fn timer_passes(&mut self, n: usize) {
        match self.random.below(8) {
            0..=4 => {
                let edge = self.edge(n);
                let time = self.about(edge);
                self.go(time);
            }
            5 => {
                let time = self.about(self.list.device.now);
                self.go(time);
            }
            6 => self.next_vsync(),
            7 if self.random.one_in(6) => {
                let time = self.about(LAST_TIME);
                self.go(time);
            }
            _ => self.pass(),
        }
        self.list.read(timer_word(n, COUNTER_AT));
        self.list.read(timer_word(n, CONTROL_AT));
        self.list.look(n as u64);
        let other = self.random.below(2 * TIMER_COUNT);
        if other < TIMER_COUNT {
            self.list.look(other as u64);
            self.list.read(timer_word(other, COUNTER_AT));
        }
    }

    /// Over the end of a sixtieth of a second, place for place.
    fn next_vsync(&mut self) {
        let more = self.random.pick(&[1, 1, 2, 3, 59, 60, 1_000_003]) as f64;
        let edge = ((self.list.device.now * VSYNC_HZ).floor() + more) / VSYNC_HZ;
        for places in -1..=1 {
            self.list.advance(off(edge, places));
            self.list.look(0xA);
        }
    }

    fn rate(&self, n: usize) -> f64 {
        let clock = self.list.device.sysclk();
        let slow = self.list.device.reg(timer_word(n, CONTROL_AT)) & 1 != 0;
        clock / if slow { 256.0 } else { 2.0 }
    }

    /// The end of one of timer `n`'s periods, or of one of its counts.
    fn edge(&mut self, n: usize) -> f64 {
        let counts = self.random.one_in(4);
        let many = self.random.below(1 << 24);
        let more = self.random.pick(&[0, 1, 1, 1, 2, 3, many % 1000, many]) as f64;
        let device = &self.list.device;
        let length = if counts { 1.0 } else { device.timer_period(n) as f64 };
        let seconds = length / self.rate(n);
        let start = device.timers[n].start;
        let gone = ((device.now - start) / seconds).max(0.0).floor();
        let edge = start + (gone + more) * length / self.rate(n);
        // With a slow clock such an edge may lie beyond all time.
        if edge <= LAST_TIME || self.random.one_in(4) {
            return edge;
        }
        device.now + fraction(&mut self.random) * 4.0 / self.rate(n)
    }

    /// Compares whose duty is about one of its ends, or plain ones.
    fn compare(&mut self) {
        let period = self.list.device.timer_period(SOUND_TIMER) as f64;
        let part = self.random.pick(&[0.05, 0.95, 0.5, 1.0]);
        let high = (period * part) as u32 + self.random.below(4) as u32;
        let compare = 0x1_0001u32.wrapping_sub(high);
        let compare = self.value(&[compare, compare & 0xFFFF, 0, 0xFFFF]);
        self.list.write(timer_word(SOUND_TIMER, COMPARE_AT), compare);
    }

    fn sound_control(&mut self) {
        let control = self.control();
        let run = if self.random.one_in(4) { 0 } else { 0x2000 };
        self.list.write(timer_word(SOUND_TIMER, CONTROL_AT), control | run);
    }

    fn sound_word(&mut self) -> u32 {
        timer_word(SOUND_TIMER, self.random.pick(&[CONTROL_AT, RELOAD_AT, COMPARE_AT]))
    }

    /// The same tone, unless the clock has changed meanwhile.
    fn same_again(&mut self) {
        let word = self.sound_word();
        let value = self.list.device.reg(word);
        self.list.write(word, value);
    }

    fn takes(&mut self) {
        for _ in 0..self.random.between(1, 8) {
            self.list.take();
        }
    }

    /// Writes tones until all places are taken.
    pub fn fill_store(&mut self) {
        self.list.write(timer_word(SOUND_TIMER, CONTROL_AT), 0x6000);
        while self.list.waiting() < SOUND_PLACES {
            let reload = self.random.next() as u32 & 0xFFFF;
            self.list.write(timer_word(SOUND_TIMER, RELOAD_AT), reload);
            if self.random.one_in(64) {
                self.pass();
            }
        }
    }

    /// What goes on while all places are taken, and about that.
    fn full_store(&mut self) {
        self.fill_store();
        for _ in 0..self.random.between(16, 40) {
            self.full_action();
            if self.random.one_in(3) {
                self.list.look(0x7);
                self.list.look(SOUND_TIMER as u64);
            }
        }
    }

    fn full_action(&mut self) {
        match self.random.below(12) {
            0 | 1 => self.sound_control(),
            2 => self.reload(SOUND_TIMER, &SOUND_RELOADS),
            3 | 4 => self.compare(),
            5 => self.same_again(),
            6 => {
                self.list.write(timer_word(SOUND_TIMER, COUNTER_AT), 7);
                self.list.write(timer_word(0, CONTROL_AT), 0x6000);
            }
            7 => self.change_clock(),
            8 => self.timer_passes(SOUND_TIMER),
            9 => {
                self.list.take();
            }
            _ => {
                let word = self.sound_word();
                self.list.read(word);
            }
        }
    }
}
