//! The steps of a list for the time devices (timers, sound, clocks, ADC), and
//! how document 000 answers them. What the paper adds to document 000, the
//! refusals, is decided here, by the limits in `common/limits.rs`.

use crate::common::device::fresh;
use crate::common::limits::*;
use crate::common::numbers::{self, *};
use crate::common::step::*;
use crate::cpu::Bus;
use crate::sys::System;

/// The kinds that a script has, too.
pub const READ: u64 = numbers::READ as u64;
pub const WRITE: u64 = numbers::WRITE as u64;
pub const ADVANCE: u64 = numbers::ADVANCE as u64;
pub const TURBO: u64 = numbers::TURBO as u64;
pub const TAKE: u64 = numbers::SOUND as u64;
/// For tests only, as are looks and puts.
pub const CLOCK: u64 = 0xA;

impl Device for System {
    const KINDS: &'static [u64] = &[READ, WRITE, ADVANCE, TURBO, TAKE, CLOCK, LOOK, PUT];

    fn start() -> System {
        fresh(&[])
    }

    fn answer(&mut self, step: Step) -> Answer {
        let Step { kind, address, value } = step;
        match kind {
            READ => words(self.read32(address as u32).into(), 0, 0),
            WRITE => write(self, address as u32, value as u32),
            ADVANCE => advance(self, f64::from_bits(value)),
            TURBO => turbo(self, f64::from_bits(value)),
            TAKE => take(self),
            CLOCK => {
                self.write32(SYSCLK_VAR, value as u32);
                DONE
            }
            LOOK => look(self, address),
            PUT => {
                put(self, address, value);
                DONE
            }
            _ => DONE,
        }
    }
}

/// The sign and the rest of a NaN are left open by Rust, so all print alike.
fn bits(number: f64) -> u64 {
    if number.is_nan() {
        0x7FF8_0000_0000_0000
    } else {
        number.to_bits()
    }
}

/// The device itself has no limit of events. So with all places taken the
/// write is tried, and undone if it added one.
fn write(system: &mut System, address: u32, value: u32) -> Answer {
    if system.sound.events.len() < SOUND_PLACES {
        system.write32(address, value);
        return DONE;
    }
    // A write that adds an event changes nothing else than these.
    let before = (system.regs.clone(), system.timers.clone(), system.sound.clone());
    system.write32(address, value);
    if system.sound.events.len() == SOUND_PLACES {
        return DONE;
    }
    (system.regs, system.timers, system.sound) = before;
    refused(SOUND_FULL)
}

fn advance(system: &mut System, to: f64) -> Answer {
    if bad_advance(system, to) {
        return refused(BAD_TIME);
    }
    system.advance(to);
    DONE
}

fn turbo(system: &mut System, turbo: f64) -> Answer {
    if bad_turbo(turbo) {
        return refused(BAD_TURBO);
    }
    system.turbo = turbo;
    DONE
}

fn take(system: &mut System) -> Answer {
    if system.sound.events.is_empty() {
        return refused(NO_EVENT);
    }
    let (time, frequency, duty) = system.sound.events.remove(0);
    words(bits(time), bits(frequency), bits(duty))
}

fn look(system: &System, at: u64) -> Answer {
    let (rtc, day, sound) = (&system.rtc, &system.rtc_irq, &system.sound);
    match at {
        0x0..=0x5 => {
            let timer = &system.timers[at as usize];
            words(bits(timer.start), timer.periods_seen, timer.pending.into())
        }
        0x6 => words(bits(system.now), bits(system.game_time), bits(system.turbo)),
        0x7 => words(bits(sound.state.0), bits(sound.state.1), sound.events.len() as u64),
        0x8 => words(rtc.base_ticks as u64, bits(rtc.base_time), rtc.data_out.into()),
        0x9 => words(day.tod_base as u64, bits(day.tod_set_at), day.fired),
        0xA => {
            let status = system.reg(LCD_STATUS);
            words(system.lcd.last_vsync, status.into(), system.adc_converting.into())
        }
        0xB => match rtc.alarm_ticks() {
            Some(ticks) => words(1, ticks as u64, 0),
            None => DONE,
        },
        0xC => words(day.tod(system.game_time) as u64, rtc.ticks(system.game_time) as u64, 0),
        _ => DONE,
    }
}

fn put(system: &mut System, at: u64, value: u64) {
    let timer = (at & 0xF) as usize;
    match at {
        0x0..=0x5 => put_number(&mut system.timers[timer].start, value),
        0x6 => put_number(&mut system.now, value),
        0x7 => put_number(&mut system.game_time, value),
        0x8 => put_number(&mut system.turbo, value),
        0x9 => put_number(&mut system.sound.state.0, value),
        0xA => put_number(&mut system.sound.state.1, value),
        0xB => system.rtc.base_ticks = value as i64,
        0xC => put_number(&mut system.rtc.base_time, value),
        0xD => system.rtc_irq.tod_base = i64::from(value as u32),
        0xE => put_number(&mut system.rtc_irq.tod_set_at, value),
        0xF => system.rtc_irq.fired = value,
        0x10..=0x15 => system.timers[timer].periods_seen = value,
        0x16 => system.lcd.last_vsync = value,
        0x20..=0x25 => system.timers[timer].pending = value & 1 != 0,
        _ => {}
    }
}

/// A NaN changes nothing.
fn put_number(place: &mut f64, value: u64) {
    let number = f64::from_bits(value);
    if !number.is_nan() {
        *place = number;
    }
}
