//! What else a host asks of the port.

use crate::board::{Board, Clocks, Counters, Event};
use crate::common::numbers::SCREEN_BYTES;
use crate::live::*;
use crate::port::{Port, MOST_TRACKED};

impl<const ENTRIES: bool> Port<ENTRIES> {
    fn at(&self) -> *const Unit {
        self.unit.as_ptr()
    }

    fn at_mut(&mut self) -> *mut Unit {
        self.unit.as_mut_ptr()
    }
}

// SAFETY: in all of these unit and memories are there as long as the port is, and
// the other pointers are those of what lies here.
impl<const ENTRIES: bool> Board for Port<ENTRIES> {
    fn advance(&mut self, now: f64) {
        let answer = unsafe { tg18_advance(self.at_mut(), &self.lent, now) };
        self.judge(answer, "advance to second", now as u32);
    }

    fn next_event(&mut self) -> f64 {
        let mut time = 0.0;
        let answer = unsafe { tg18_next_event(self.at(), &self.lent, &mut time) };
        self.judge(answer, "next event", 0);
        time
    }

    fn pending_irq(&self) -> u32 {
        unsafe { tg18_pending_irq(self.at()) }
    }

    fn irq_wanted(&self) -> bool {
        unsafe { tg18_irq_wanted(self.at()) != 0 }
    }

    fn take_events(&mut self, taken: &mut Vec<Event>) {
        let (records, room) = (self.records.as_mut_ptr(), self.records.len());
        let count = unsafe { tg18_take_events(self.at_mut(), records, room) };
        let bits = |event: &Record| [event.time, event.frequency, event.duty].map(f64::to_bits);
        taken.extend(self.records[..count].iter().map(bits));
    }

    fn counters(&self) -> Counters {
        let (mut frames, mut flash_writes, mut off) = (0, 0, 0);
        unsafe { tg18_counters(self.at(), &mut frames, &mut flash_writes, &mut off) };
        Counters { frames, flash_writes, off: off != 0 }
    }

    fn clocks(&self) -> Clocks {
        let mut ticks = 0;
        let on = unsafe { tg18_alarm_ticks(self.at(), &mut ticks) } != 0;
        let (day, now) = unsafe { (tg18_tod(self.at()), tg18_ticks(self.at())) };
        Clocks { day, ticks: now, alarm: on.then_some(ticks) }
    }

    fn keys_held(&self) -> u32 {
        unsafe { tg18_keys_held(self.at()) }
    }

    fn live_key(&mut self, key: usize, down: bool) {
        let answer = unsafe { tg18_live_key(self.at_mut(), key as u32, down.into()) };
        self.judge(answer, "key", key as u32);
    }

    fn hold_until(&mut self, key: usize, until: f64) {
        let answer = unsafe { tg18_hold_until(self.at_mut(), key as u32, until) };
        self.judge(answer, "hold of key", key as u32);
    }

    fn press(&mut self, key: usize, at: f64) {
        let answer = unsafe { tg18_press(self.at_mut(), key as u32, at) };
        self.judge(answer, "press of key", key as u32);
    }

    fn turbo(&mut self, factor: f64) {
        let answer = unsafe { tg18_turbo(self.at_mut(), factor) };
        self.judge(answer, "turbo", factor as u32);
    }

    fn track(&mut self) {
        self.track.on = true;
        self.track.register = false;
        self.track.words.clear();
    }

    fn undone(&mut self) -> bool {
        self.track.on = false;
        let words = std::mem::take(&mut self.track.words);
        // Of a word that was written more than once the first entry counts.
        let first = |at: usize| words[..at].iter().all(|kept| kept.0 != words[at].0);
        !self.track.register
            && words.len() < MOST_TRACKED
            && (0..words.len()).all(|at| !first(at) || self.held(words[at].0) == words[at].1)
    }

    fn stopped(&self) -> bool {
        self.stop
    }

    fn trouble(&self) -> Option<String> {
        self.refused.clone()
    }

    fn register_accesses(&self) -> u64 {
        self.registers
    }

    fn screen(&self) -> Vec<u8> {
        let mut screen = vec![0; SCREEN_BYTES];
        let answer = unsafe { tg18_screen(&self.lent, screen.as_mut_ptr(), screen.len()) };
        assert_eq!(answer, 0, "a screen is refused");
        screen
    }

    fn stored(&mut self, address: u32) -> u32 {
        let mut word = 0;
        let answer = unsafe { tg18_peek32(self.at(), &self.lent, address, &mut word) };
        self.judge(answer, "peek at", address);
        word
    }

    fn stored_byte(&mut self, address: u32) -> u8 {
        let mut byte = 0;
        let answer = unsafe { tg18_peek8(self.at(), &self.lent, address, &mut byte) };
        self.judge(answer, "peek at", address);
        byte
    }

    fn block(&mut self, address: u32, length: usize) -> (bool, Vec<u8>) {
        let (mut bytes, mut whole) = (vec![0; length], 0);
        let to = bytes.as_mut_ptr();
        let answer =
            unsafe { tg18_read_block(self.at(), &self.lent, address, to, length, &mut whole) };
        self.judge(answer, "block at", address);
        (whole != 0, bytes)
    }

    fn poke(&mut self, address: u32, bytes: &[u8]) {
        let (from, count) = (bytes.as_ptr(), bytes.len());
        let answer = unsafe { tg18_poke(self.at_mut(), &self.lent, address, from, count) };
        self.judge(answer, "poke at", address);
    }

    fn move_house(&mut self) {
        let moved = self.unit.clone();
        self.unit.fill(Unit::MAX);
        self.unit = moved;
    }

    fn memories(&mut self) -> [&mut [u8]; 4] {
        self.owned.0.each_mut().map(|memory| &mut memory[..])
    }
}
