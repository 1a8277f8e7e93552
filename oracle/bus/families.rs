//! The families of lists for the whole bus, and what their authors share.

use super::clocks::{adc, clock, power, rtc, spi2};
use super::damage::damage;
use super::fixed::fixed_list;
use super::flash::flash;
use super::keys::keys;
use super::limits::{limits, wild};
use super::list::List;
use super::memory::memory;
use super::panel::panel;
use super::status::{next, status};
use super::steps::Board;
use super::timers::{sound, timers};
use super::wipes::wipes;
use super::words::{others, words};
use crate::common::edges::{fraction, off, TURBOS};
use crate::common::generator::{family, Authorship, Family};
use crate::common::numbers::{LAST_GAME_TIME, LAST_TIME};
use crate::common::random::Random;

pub const FAMILIES: [Family<Author>; 19] = [
    family("memory", memory),
    family("words", words),
    family("others", others),
    family("status", status),
    family("timers", timers),
    family("sound", sound),
    family("flash", flash),
    family("damage", damage),
    family("panel", panel),
    family("rtc", rtc),
    family("clock", clock),
    family("adc", adc),
    family("spi2", spi2),
    family("power", power),
    family("keys", keys),
    family("next", next),
    family("limits", limits),
    family("wild", wild),
    family("wipes", wipes),
];

pub struct Author {
    pub random: Random,
    pub list: List,
    /// The RTC register or own word whose turn it is, so that all come up.
    pub turn: usize,
}

impl Authorship for Author {
    type Device = Board;
    const PROGRAM: &'static str = "oracle_bus_generate";
    const FAMILIES: &'static [Family<Author>] = &FAMILIES;

    fn new(seed: u64) -> Author {
        let turn = seed.wrapping_mul(64) as usize % 256;
        Author { random: Random::new(seed), list: List::new(), turn }
    }

    fn list(&mut self) -> &mut List {
        &mut self.list
    }

    fn into_list(self) -> List {
        self.list
    }

    /// Everything begins anew now and then, and when time has come near its
    /// end, for then little happens any more.
    fn settle(&mut self) {
        let system = self.list.system();
        let late = system.now > 0.9 * LAST_TIME || system.game_time > 0.9 * LAST_GAME_TIME;
        if late && self.random.one_in(4) || self.random.one_in(400) {
            self.list.look_state();
            self.list.wipe();
        }
    }

    fn end(&mut self) {
        self.list.begin("ending");
        self.list.look_state();
        self.list.look_words();
        self.list.look_rest();
    }

    fn fixed_list() -> List {
        fixed_list()
    }
}

impl Author {
    pub fn size(&mut self) -> u64 {
        self.random.pick(&[1, 2, 4])
    }

    pub fn bits(&mut self) -> u32 {
        self.random.next() as u32
    }

    /// A value for a register: some edge of it, or any.
    pub fn value(&mut self, edges: &[u32]) -> u32 {
        if self.random.one_in(4) {
            self.bits()
        } else {
            self.random.pick(edges)
        }
    }

    /// The word's value by one write or by several, so that it is this one in
    /// the end wherever writes only store.
    pub fn put(&mut self, word: u32, value: u32) {
        match self.random.below(8) {
            0 => {
                self.list.write_sized(2, word, value & 0xFFFF);
                self.list.write_sized(2, word + 2, value >> 16);
            }
            1 => {
                for at in 0..4 {
                    self.list.write_sized(1, word + at, value >> (8 * at));
                }
            }
            _ => {
                self.list.write(word, value);
            }
        }
    }

    /// One write, of the whole word or of its low bytes only. What stands
    /// above a short write's value is cut off.
    pub fn put_once(&mut self, word: u32, value: u32) {
        let size = self.random.pick(&[4, 4, 4, 4, 2, 1]);
        self.list.write_sized(size, word, value);
    }

    /// A write to any part of the word, or past its end.
    pub fn put_part(&mut self, word: u32, value: u32) {
        let (size, at) = (self.size(), self.random.below(4) as u32);
        self.list.write_sized(size, word + at, value);
    }

    pub fn get(&mut self, word: u32) {
        if self.random.one_in(2) {
            self.list.read(word);
        } else {
            self.get_part(word);
        }
    }

    pub fn get_part(&mut self, word: u32) {
        let (size, at) = (self.size(), self.random.below(4) as u32);
        self.list.read_sized(size, word + at);
    }

    /// The number itself, or one up to three places beside it.
    pub fn about(&mut self, number: f64) -> f64 {
        off(number, self.random.between(0, 6) as i32 - 3)
    }

    /// Advances to `time`. One that is over would be refused, so it is mostly
    /// put off to now.
    pub fn go(&mut self, time: f64) {
        let now = self.list.now();
        let over = time < now && !self.random.one_in(8);
        self.list.advance(if over { now } else { time });
    }

    /// To about the time at which game time is `game`.
    pub fn go_game(&mut self, game: f64) {
        let system = self.list.system();
        let time = system.now + (game - system.game_time) / system.turbo;
        let time = self.about(time);
        self.go(time);
    }

    /// Some time goes by.
    pub fn pass(&mut self) {
        let most = self.random.pick(&[0.0, 1e-6, 1e-3, 0.02, 0.1, 0.3, 1.0, 60.0, 86_400.0]);
        let seconds = fraction(&mut self.random) * most;
        self.go(self.list.now() + seconds);
    }

    pub fn change_turbo(&mut self) {
        let turbo = self.random.pick(&TURBOS);
        self.list.turbo(turbo);
    }

    pub fn next_turn(&mut self, limit: usize) -> usize {
        self.turn = self.turn.wrapping_add(1);
        self.turn % limit
    }
}
