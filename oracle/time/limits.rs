//! Lists at the limits of time and turbo, and lists over state that no other
//! list would reach.

use crate::common::device::timer_word;
use crate::common::edges::*;
use crate::common::numbers::*;
use crate::families::Author;
use crate::steps::ADVANCE;

/// Everything that can be put, some places twice or more, and four that are
/// no place.
#[rustfmt::skip]
const PLACES: [u64; 41] = [
    0x0, 0x1, 0x2, 0x3, 0x4, 0x5, 0x6, 0x6, 0x6, 0x7, 0x7, 0x7, 0x8, 0x8, 0x9, 0xA, 0xB, 0xB, 0xC,
    0xC, 0xD, 0xE, 0xE, 0xF, 0x10, 0x11, 0x12, 0x13, 0x14, 0x15, 0x16, 0x20, 0x21, 0x22, 0x23, 0x24,
    0x25, 0x17, 0x1F, 0x26, 0xFFFF_FFFF,
];

/// Kinds that do nothing.
pub const NO_KINDS: [u64; 11] = [0x0, 0x4, 0x5, 0x7, 0x8, 0xD, 0xE, 0xF, 0x10, 0x1F, 0xFF];

pub fn limits(author: &mut Author) {
    match author.random.below(8) {
        0..=2 => {
            let time = author.random.pick(&TIME_EDGES);
            author.list.step(ADVANCE, 0, time);
        }
        3 => {
            let turbo = author.random.pick(&TURBO_EDGES);
            author.list.turbo(turbo);
        }
        // Back by some places, forth by some, or not at all.
        4 => {
            let time = author.about(author.list.device.now);
            author.list.advance(time);
        }
        5 => author.last_time(),
        6 => author.last_game_time(),
        _ => author.pass(),
    }
    author.list.look(0x6);
}

pub fn wild(author: &mut Author) {
    for _ in 0..author.random.between(1, 4) {
        author.wild_put();
    }
    for _ in 0..author.random.between(2, 8) {
        author.wild_step();
    }
}

impl Author {
    fn last_time(&mut self) {
        let before = off(LAST_TIME, -(self.random.below(4) as i32));
        self.list.put_number(0x6, before);
        self.list.put_number(0x7, 0.0);
        for _ in 0..2 {
            let time = self.about(LAST_TIME);
            self.list.advance(time);
        }
    }

    /// From where the next advance brings game time to about its end.
    fn last_game_time(&mut self) {
        let turbo = self.random.pick(&[FASTEST, FASTEST, 1000.5, 3.7, 1.0, SLOWEST]);
        let now = fraction(&mut self.random) * self.random.pick(&[0.0, 1.0, 1e6]);
        let to = now + fraction(&mut self.random) * self.random.pick(&[1.0, 1e3, 1e6]);
        let to = if self.random.one_in(4) { LAST_TIME } else { to };
        let game = LAST_GAME_TIME - (to - now) * turbo;
        let game = self.about(game);
        self.list.turbo(turbo);
        self.list.put_number(0x6, now);
        self.list.put_number(0x7, game);
        let to = self.about(to);
        self.list.advance(to);
    }

    pub fn wild_put(&mut self) {
        let at = self.random.pick(&PLACES);
        let value = match at {
            0xB | 0xD | 0xF..=0x16 => self.wild_count(),
            0x17.. => self.random.next(),
            _ => self.wild_number(),
        };
        self.list.put(at, value);
    }

    fn wild_count(&mut self) -> u64 {
        let any = self.random.next();
        match self.random.below(4) {
            0 => any,
            1 => any % 1_000_000,
            _ => self.random.pick(&WILD_COUNTS),
        }
    }

    fn wild_number(&mut self) -> u64 {
        let some = fraction(&mut self.random) * self.random.pick(&[1.0, 1e3, 1e6, 1e9]);
        match self.random.below(8) {
            0 => self.random.next(),
            1 => self.random.pick(&TIME_EDGES),
            2..=4 => {
                let number = self.random.pick(&WILD_NUMBERS);
                self.about(number).to_bits()
            }
            5 => (-some).to_bits(),
            _ => some.to_bits(),
        }
    }

    pub fn wild_step(&mut self) {
        match self.random.below(16) {
            0 => {
                let word = self.any_word();
                self.list.read(word);
            }
            1 => {
                let word = self.any_word();
                let value = self.random.next() as u32;
                self.list.write(word, value);
            }
            2..=5 => self.wild_advance(),
            6 | 7 => {
                let at = self.random.between(0x0, 0xD);
                self.list.look(at as u64);
            }
            8..=10 => self.wild_timer(),
            11 => self.wild_tone(),
            12 => self.fields(),
            13 => self.count(),
            _ => self.wild_other(),
        }
    }

    fn wild_advance(&mut self) {
        let now = self.list.device.now;
        let time = match self.random.below(6) {
            0 => self.random.pick(&TIME_EDGES),
            1 => self.about(now).to_bits(),
            2 => (fraction(&mut self.random) * LAST_TIME).to_bits(),
            3 => 0,
            _ => (now + fraction(&mut self.random) * 100.0).to_bits(),
        };
        self.list.step(ADVANCE, 0, time);
        self.list.look(0x6);
    }

    fn wild_timer(&mut self) {
        let n = self.random.below(TIMER_COUNT);
        if self.random.one_in(3) {
            let start = self.list.device.timers[n].start;
            self.list.write(timer_word(n, CONTROL_AT), 0x6000);
            // Beginning to run has set the start; here it is to be wild.
            self.list.put_number(n as u64, start);
        }
        self.list.read(timer_word(n, COUNTER_AT));
        self.list.look(n as u64);
    }

    /// A tone against a state of sound that no tone gives; or against one
    /// that is equal and has other bits.
    fn wild_tone(&mut self) {
        if self.random.one_in(4) {
            self.list.put_number(0x9, -0.0);
            self.list.put_number(0xA, 0.5);
            self.list.write(timer_word(SOUND_TIMER, CONTROL_AT), 0);
        } else {
            let word =
                timer_word(SOUND_TIMER, self.random.pick(&[CONTROL_AT, RELOAD_AT, COMPARE_AT]));
            let value = self.list.device.reg(word);
            self.list.write(word, value);
        }
        self.list.look(0x7);
    }

    fn wild_other(&mut self) {
        match self.random.below(4) {
            0 => {
                let kind = self.random.pick(&NO_KINDS);
                let address = self.any_word();
                let value = self.random.next();
                self.list.step(kind, address.into(), value);
            }
            1 => {
                self.list.take();
            }
            2 => {
                let turbo = self.random.pick(&TURBO_EDGES);
                self.list.turbo(turbo);
            }
            _ => {
                let clock = self.value(&CLOCKS);
                self.list.clock(clock);
            }
        }
    }
}
