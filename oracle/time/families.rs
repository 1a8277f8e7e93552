//! The families of lists for the time devices, and what their authors share.

use crate::clocks::{adc, day, rtc};
use crate::common::edges::{fraction, off, TURBOS};
use crate::common::generator::{family, Authorship, Family};
use crate::common::numbers::*;
use crate::common::random::Random;
use crate::fixed::fixed_list;
use crate::limits::{limits, wild};
use crate::list::List;
use crate::sys::System;
use crate::timers::{sound, timers};

const FAMILIES: [Family<Author>; 8] = [
    family("timers", timers),
    family("sound", sound),
    family("rtc", rtc),
    family("day", day),
    family("adc", adc),
    family("limits", limits),
    family("wild", wild),
    family("mixture", mixture),
];

/// How many of the families, in their order, leave the state tame. The wild
/// one comes next.
const TAME: usize = 6;

/// Every other register word that a list reads or writes.
const OTHER_WORDS: [u32; 12] = [
    RTC_SECONDS,
    RTC_MINUTES,
    RTC_HOURS,
    RTC_IRQ_STATUS,
    RTC_IRQ_ENABLE,
    RTC_ADDRESS,
    RTC_DATA,
    RTC_COMMAND,
    RTC_READY,
    RTC_OUT,
    ADC_CONTROL,
    ADC_RESULT,
];

/// Each action belongs to another family. Wild ones are rarer, for they undo
/// what the others have built up.
fn mixture(author: &mut Author) {
    let at = author.random.below(4 * TAME + 1) / 4;
    FAMILIES[at].act(author);
}

pub struct Author {
    pub random: Random,
    pub list: List,
    /// The RTC register whose turn it is, so that all come up.
    pub next_register: u64,
    /// The same for a pair of values of the ADC's control.
    pub next_pair: u64,
}

impl Authorship for Author {
    type Device = System;
    const PROGRAM: &'static str = "oracle_time_generate";
    const FAMILIES: &'static [Family<Author>] = &FAMILIES;

    fn new(seed: u64) -> Author {
        Author {
            random: Random::new(seed),
            list: List::new(),
            // Lists of 1000 steps and one seed after the other leave no gaps.
            next_register: seed.wrapping_mul(16),
            next_pair: seed.wrapping_mul(100),
        }
    }

    fn list(&mut self) -> &mut List {
        &mut self.list
    }

    fn into_list(self) -> List {
        self.list
    }

    /// Where time has come near its end, or state is wild, little happens any
    /// more. Then time is sometimes set back, and what counts it mostly.
    fn settle(&mut self) {
        if self.lively() || !self.random.one_in(4) {
            return;
        }
        let now = fraction(&mut self.random) * self.random.pick(&[0.0, 1.0, 1e3, 1e6]);
        let game = now * self.random.pick(&[0.0, 1.0, 1000.0]);
        self.list.put_number(0x6, now);
        self.list.put_number(0x7, game);
        self.change_turbo();
        if !self.random.one_in(4) {
            self.list.put(0xF, game as u64);
            self.list.put(0x16, (now * 60.0) as u64);
        }
    }

    fn end(&mut self) {
        self.list.end();
    }

    fn fixed_list() -> List {
        fixed_list()
    }
}

impl Author {
    pub fn any_word(&mut self) -> u32 {
        let timers = TIMER_WORDS as usize;
        match self.random.below(timers + OTHER_WORDS.len()) {
            at if at < timers => TIMER_BASE + 4 * at as u32,
            at => OTHER_WORDS[at - timers],
        }
    }

    /// A value for a register: some edge of it, or any.
    pub fn value(&mut self, edges: &[u32]) -> u32 {
        if self.random.one_in(4) {
            self.random.next() as u32
        } else {
            self.random.pick(edges)
        }
    }

    /// The number itself, or one up to three places beside it.
    pub fn about(&mut self, number: f64) -> f64 {
        off(number, self.random.between(0, 6) as i32 - 3)
    }

    /// Advances to `time`. One that is over would be refused, so it is mostly
    /// put off to now.
    pub fn go(&mut self, time: f64) {
        let now = self.list.device.now;
        let over = time < now && !self.random.one_in(8);
        self.list.advance(if over { now } else { time });
    }

    /// To about the time at which game time is `game`.
    pub fn go_game(&mut self, game: f64) {
        let device = &self.list.device;
        let time = device.now + (game - device.game_time) / device.turbo;
        let time = self.about(time);
        self.go(time);
    }

    /// Some time goes by.
    pub fn pass(&mut self) {
        let most = self.random.pick(&[1e-9, 1e-6, 1e-3, 0.1, 1.0, 60.0, 3600.0, 86_400.0]);
        let time = self.list.device.now + fraction(&mut self.random) * most;
        self.go(time);
    }

    pub fn change_turbo(&mut self) {
        let turbo = self.random.pick(&TURBOS);
        self.list.turbo(turbo);
    }

    fn lively(&self) -> bool {
        let device = &self.list.device;
        (0.0..0.9 * LAST_TIME).contains(&device.now)
            && (0.0..0.9 * LAST_GAME_TIME).contains(&device.game_time)
            && (SLOWEST..=FASTEST).contains(&device.turbo)
    }
}
