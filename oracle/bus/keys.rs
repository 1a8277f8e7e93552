//! The family for keys and the lines that they drive.

use super::families::Author;
use super::kinds::PRESS;
use super::list::List;
use crate::common::edges::{fraction, off, TIME_EDGES};
use crate::common::numbers::{GPIO_BASE, KEY_HOLD, KEY_LINES, KEY_PLACES};

pub fn keys(author: &mut Author) {
    match author.random.below(12) {
        0..=2 => author.tap(),
        3 if author.random.one_in(2) => author.presses_at_once(),
        3 => author.many_presses(),
        4 | 5 => author.line_bits(),
        6 => {
            let (key, down) = (author.key(), author.random.pick(&[0, 1, 1 << 32, u64::MAX]));
            author.list.live(key, down);
        }
        7 => {
            author.list.pass(0.0);
        }
        _ => author.keys_pass(),
    }
    author.list.keys();
    author.list.read(KEY_LINES);
}

/// Presses of one key after the other, each at `time`, until no more fit.
pub fn fill_presses(list: &mut List, time: f64) {
    for at in 0..KEY_PLACES as u64 {
        list.press(at % 3, time);
    }
}

impl Author {
    fn key(&mut self) -> u64 {
        self.random.below(3) as u64
    }

    /// A press, a hold or a key that is down, now or soon.
    pub fn tap(&mut self) {
        let key = self.key();
        let ahead = fraction(&mut self.random) * self.random.pick(&[0.0, 0.1, 0.3, 1.0]);
        let back = self.random.pick(&[0.0, 0.0, 0.05, KEY_HOLD, 0.2]);
        let time = (self.list.now() + ahead - back).max(0.0);
        match self.random.below(4) {
            0 => self.list.hold(key, time),
            1 => {
                let down = self.random.below(2) as u64;
                self.list.live(key, down)
            }
            _ => self.list.press(key, time),
        };
        self.list.next();
    }

    /// As many as fit, all at one time, so that all expire at once.
    fn presses_at_once(&mut self) {
        let time = self.list.now() + fraction(&mut self.random) * 0.1;
        fill_presses(&mut self.list, time);
        let bad = self.random.pick(&TIME_EDGES);
        self.list.press(3, time);
        self.list.step(PRESS, 0, bad);
        for places in -1..=1 {
            self.go(off(time + KEY_HOLD, places));
            let key = self.key();
            self.list.press(key, time);
            self.list.keys();
        }
    }

    /// More than fit, and again when some of them have expired.
    fn many_presses(&mut self) {
        let now = self.list.now();
        for _ in 0..self.random.pick(&[3, 20, 66]) {
            let key = self.key();
            let time = now + fraction(&mut self.random) * 0.5;
            self.list.press(key, time);
        }
        self.keys_pass();
        let (key, now) = (self.key(), self.list.now());
        self.list.press(key, now);
    }

    /// Lines and other bits of their word set and cleared by writes.
    fn line_bits(&mut self) {
        let bits = self.value(&[0, 0x20, 0x40, 0x80, 0xE0, 0x1F, 0xFFFF_FFFF]);
        self.put_part(KEY_LINES, bits);
        let word = GPIO_BASE + 0x20 * self.random.below(8) as u32;
        let value = self.bits();
        self.list.write(word, value);
        self.list.pass(0.0);
        self.list.digest(2);
    }

    /// To about the beginning or the end of a press or hold.
    fn keys_pass(&mut self) {
        let system = self.list.system();
        let presses = system.key_script.iter().flat_map(|&(time, _)| [time, time + KEY_HOLD]);
        let edges: Vec<f64> =
            presses.chain(system.hold_until).filter(|&edge| edge >= system.now).collect();
        if edges.is_empty() || self.random.one_in(4) {
            self.pass();
        } else {
            let edge = self.random.pick(&edges);
            let time = self.about(edge);
            self.go(time);
        }
        self.list.keys();
        self.list.next();
    }
}
