//! The families for limits, and for everything mixed.

use super::families::{Author, FAMILIES};
use super::kinds::{ADVANCE, HOLD, LIVE, PRESS, READ, WRITE};
use super::map::{OTHER_WORD, TONE_WORDS};
use crate::common::edges::{fraction, TIME_EDGES, TURBO_EDGES};
use crate::common::numbers::*;

/// How many of the families, in their order, others draw from.
pub const TAME: usize = 17;

/// The families whose actions leave so much that they are rarer.
pub const LARGE: [&str; 2] = ["others", "sound"];

pub fn limits(author: &mut Author) {
    match author.random.below(10) {
        0 => author.any_size(),
        1 => author.any_key(),
        2..=4 => {
            let (kind, key) =
                (author.random.pick(&[ADVANCE, ADVANCE, HOLD, PRESS]), author.random.below(4));
            let time = author.random.pick(&TIME_EDGES);
            author.list.step(kind, key as u64, time);
        }
        5 => {
            let turbo = author.random.pick(&TURBO_EDGES);
            author.list.turbo(turbo);
        }
        // Back by some places, forth by some, or not at all.
        6 => {
            let time = author.about(author.list.now());
            author.list.advance(time);
        }
        7 => author.last_game_time(),
        8 => author.last_time(),
        _ => author.pass(),
    }
    author.list.next();
    author.list.read(RTC_SECONDS);
}

/// Each action belongs to another family.
pub fn wild(author: &mut Author) {
    let family = &FAMILIES[author.random.below(TAME)];
    if !LARGE.contains(&family.name) || author.random.one_in(4) {
        family.act(author);
    }
    if author.random.one_in(8) {
        author.list.lines();
        author.list.next();
    }
}

impl Author {
    /// Sizes come before all else, and before the address.
    fn any_size(&mut self) {
        let address = self.address();
        let address = self.random.pick(&[address, OTHER_WORD, 0x1000_0000, TONE_WORDS[0]]);
        let kind = self.random.pick(&[READ, WRITE]);
        for _ in 0..4 {
            let size = self.random.pick(&[0, 3, 5, 6, 7, 8, 9, 10, 11, 12, 13, 14, 15]);
            let value = self.random.next();
            self.list.step(kind + size, address.into(), value);
        }
        // A write takes its value modulo 2^32.
        let value = self.random.next();
        self.list.step(WRITE + 4, OTHER_WORD.into(), value);
        self.list.read(OTHER_WORD);
    }

    /// Keys come before times.
    fn any_key(&mut self) {
        let kind = self.random.pick(&[LIVE, HOLD, PRESS]);
        let key = self.random.pick(&[0, 1, 2, 3, 4, 255]);
        let now = self.list.now().to_bits();
        let time = self.random.pick(&[now, f64::NAN.to_bits(), (-1.0f64).to_bits()]);
        self.list.step(kind, key, time);
        self.list.keys();
    }

    /// Game time comes to about its end, from as near as turbo allows.
    fn last_game_time(&mut self) {
        self.list.turbo(FASTEST);
        let system = self.list.system();
        let to = system.now + (LAST_GAME_TIME - system.game_time) / FASTEST;
        let some = fraction(&mut self.random);
        let part = self.random.pick(&[1.0, 1.0, 1.0, some]);
        let to = system.now + (to - system.now) * part;
        for _ in 0..2 {
            let time = self.about(to);
            self.list.advance(time);
        }
        let turbo = self.random.pick(&[SLOWEST, 1.0, 3.7]);
        self.list.turbo(turbo);
        let seconds = self.random.pick(&[0.0, 1e-7, 1.0]);
        self.list.pass(seconds);
    }

    fn last_time(&mut self) {
        self.list.turbo(SLOWEST);
        for _ in 0..3 {
            let time = self.about(LAST_TIME);
            self.list.advance(time);
        }
        self.list.next();
    }
}
