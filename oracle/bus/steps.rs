//! The steps of a list for the whole bus, and how document 000 answers them.
//! What the paper adds to document 000, the refusals, is decided here and in
//! `common/limits.rs` before the device is called.

use super::kinds::*;
use super::map::*;
use crate::common::device::fresh;
use crate::common::limits::*;
use crate::common::numbers::{
    BAD_KEY, BAD_SIZE, BAD_TIME, BAD_TURBO, KEYS_FULL, KEY_HOLD, KEY_PLACES, NO_EVENT,
    NO_NEXT_TIME, REGISTERS_FULL, REGISTER_PLACES, SOUND_FULL, SOUND_PLACES, STRAY_WRITE,
};
use crate::common::step::*;
use crate::cpu::Bus;
use crate::sys::{Key, System};
use crate::{LAST_KIND, SRAM_LENGTH};

pub struct Board {
    pub system: System,
}

/// The fresh state, and all memories zero.
fn wiped() -> System {
    let mut system = fresh(&[]);
    system.sram.truncate(SRAM_LENGTH);
    // The device says which stray pages it maps, but not beyond so many.
    system.unmapped = vec![(0, 0); 64];
    system
}

impl Device for Board {
    #[rustfmt::skip]
    const KINDS: &'static [u64] = &[
        READ + 1, READ + 2, READ + 4, WRITE + 1, WRITE + 2, WRITE + 4, ADVANCE, NEXT, PENDING,
        TURBO, LIVE, HOLD, TAKE, COUNTERS, PIXEL, WIPE, PRESS, PEEK8, PEEK32, POKE, KEYS, WANTED,
        BLOCK, DIGEST,
    ];

    fn start() -> Board {
        Board { system: wiped() }
    }

    /// Any kind that is not here.
    fn ends(step: Step) -> bool {
        !(READ..=LAST_WRITE).contains(&step.kind) && !Board::KINDS.contains(&step.kind)
    }

    fn has(step: Step) -> bool {
        step.kind <= LAST_KIND
    }

    fn answer(&mut self, step: Step) -> Answer {
        let (address, value, size) = (step.address as u32, step.value, step.kind % 16);
        let number = f64::from_bits(value);
        let answer = match step.kind {
            READ..=LAST_READ => self.read(address, size),
            WRITE..=LAST_WRITE => self.write(address, size, value as u32),
            ADVANCE => self.advance(number),
            NEXT => self.next(),
            TURBO => self.turbo(number),
            LIVE => self.live(address, value != 0),
            HOLD => self.hold(address, number),
            TAKE => self.take(),
            WIPE => {
                self.system = wiped();
                DONE
            }
            PRESS => self.press(address % 256, number),
            POKE => self.poke(address, value as u32),
            BLOCK => self.block(address, value as usize % 65_537),
            _ => self.show(step.kind, address),
        };
        // Nothing is ever written to the pages that stray peeks and blocks
        // have mapped, so they need not stay.
        self.system.extra.clear();
        answer
    }
}

pub fn one(a: impl Into<u64>) -> Answer {
    words(a.into(), 0, 0)
}

fn bad_size(size: u64) -> bool {
    !matches!(size, 1 | 2 | 4)
}

fn key(number: u32) -> Option<Key> {
    Key::all().get(number as usize).copied()
}

/// h = h * 31 + byte, modulo 2^64.
pub fn digest(bytes: &[u8]) -> u64 {
    bytes.iter().fold(0, |h: u64, &byte| h.wrapping_mul(31).wrapping_add(byte.into()))
}

impl Board {
    /// What is stray reads as 0, and the device is not asked.
    fn read(&mut self, address: u32, size: u64) -> Answer {
        if bad_size(size) {
            return refused(BAD_SIZE);
        }
        if place(address) == Place::Stray {
            return DONE;
        }
        match size {
            1 => one(self.system.read8(address)),
            2 => one(self.system.read16(address)),
            _ => one(self.system.read32(address)),
        }
    }

    fn write(&mut self, address: u32, size: u64, value: u32) -> Answer {
        if bad_size(size) {
            return refused(BAD_SIZE);
        }
        match place(address) {
            Place::Stray => refused(STRAY_WRITE),
            Place::Register if self.no_room(address, size, value) => refused(REGISTERS_FULL),
            Place::Register if self.no_event_fits(address) => self.try_tone(address, size, value),
            _ => self.store(address, size, value),
        }
    }

    fn store(&mut self, address: u32, size: u64, value: u32) -> Answer {
        match size {
            1 => self.system.write8(address, value as u8),
            2 => self.system.write16(address, value as u16),
            _ => self.system.write32(address, value),
        }
        DONE
    }

    fn no_room(&self, address: u32, size: u64, value: u32) -> bool {
        let word = address & !3;
        takes_room(word)
            && self.system.reg(word) == 0
            && merged(&self.system, address, size, value) != 0
            && others(&self.system).len() >= REGISTER_PLACES
    }

    fn no_event_fits(&self, address: u32) -> bool {
        TONE_WORDS.contains(&(address & !3)) && self.system.sound.events.len() >= SOUND_PLACES
    }

    /// The device itself has no limit of events. So the write is tried, and
    /// undone if it added one: it changes nothing else than these.
    fn try_tone(&mut self, address: u32, size: u64, value: u32) -> Answer {
        let system = &mut self.system;
        let before = (system.regs.clone(), system.timers.clone(), system.sound.clone());
        self.store(address, size, value);
        let system = &mut self.system;
        if system.sound.events.len() == before.2.events.len() {
            return DONE;
        }
        (system.regs, system.timers, system.sound) = before;
        refused(SOUND_FULL)
    }

    fn advance(&mut self, to: f64) -> Answer {
        if bad_advance(&self.system, to) {
            return refused(BAD_TIME);
        }
        self.system.advance(to);
        DONE
    }

    fn next(&self) -> Answer {
        let next = self.system.next_event();
        if !next.is_finite() {
            return refused(NO_NEXT_TIME);
        }
        one(next.to_bits())
    }

    fn turbo(&mut self, turbo: f64) -> Answer {
        if bad_turbo(turbo) {
            return refused(BAD_TURBO);
        }
        self.system.turbo = turbo;
        DONE
    }

    fn live(&mut self, number: u32, down: bool) -> Answer {
        let Some(key) = key(number) else { return refused(BAD_KEY) };
        self.system.live_keys[key.index()] = down;
        DONE
    }

    fn hold(&mut self, number: u32, until: f64) -> Answer {
        let Some(key) = key(number) else { return refused(BAD_KEY) };
        if bad_time(until) {
            return refused(BAD_TIME);
        }
        self.system.hold_until[key.index()] = until;
        DONE
    }

    /// A press that has expired is never seen again, so it can go.
    fn press(&mut self, number: u32, time: f64) -> Answer {
        let Some(key) = key(number) else { return refused(BAD_KEY) };
        if bad_time(time) {
            return refused(BAD_TIME);
        }
        let now = self.system.now;
        let presses = &mut self.system.key_script;
        presses.retain(|&(time, _)| time + KEY_HOLD > now);
        if presses.len() >= KEY_PLACES {
            return refused(KEYS_FULL);
        }
        presses.push((time, key));
        DONE
    }

    fn take(&mut self) -> Answer {
        if self.system.sound.events.is_empty() {
            return refused(NO_EVENT);
        }
        let (time, frequency, duty) = self.system.sound.events.remove(0);
        words(time.to_bits(), frequency.to_bits(), duty.to_bits())
    }

    /// Without the stray bytes, for no page is kept.
    fn poke(&mut self, address: u32, value: u32) -> Answer {
        let bytes = value.to_le_bytes();
        let places = [0, 1, 2, 3].map(|at| place(address.wrapping_add(at)));
        if !places.contains(&Place::Stray) {
            self.system.poke(address, &bytes);
            return DONE;
        }
        for (at, byte) in bytes.into_iter().enumerate() {
            if places[at] != Place::Stray {
                self.system.poke(address.wrapping_add(at as u32), &[byte]);
            }
        }
        DONE
    }

    fn block(&mut self, address: u32, length: usize) -> Answer {
        let mut bytes = vec![0; length];
        let whole = self.system.read_block(address, &mut bytes);
        words(whole.into(), digest(&bytes), 0)
    }
}
