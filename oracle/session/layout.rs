//! What a session of the Rust device is in bytes: 02's sections, from the
//! device's own fields. The port's bytes must be these.

use crate::bus::map::{others, own_words};
use crate::common::numbers::KEY_HOLD;
use crate::memories::LENGTHS;
use crate::sys::System;

/// Bytes with no other word, no press and no event; and with all of them.
pub const LEAST: usize = 17_863_765;
pub const MOST: usize = LEAST + 8 * 256 + 9 * 64 + 24 * 256;

/// A transaction's data bytes come behind so many; and so many are counted
/// before only the place in the array is.
const HEADER: usize = 4;
const PAGE: usize = 256;

/// The presses that have not expired, in their order.
pub fn waiting(system: &System) -> Vec<(u8, f64)> {
    let presses = system.key_script.iter().filter(|(time, _)| time + KEY_HOLD > system.now);
    presses.map(|&(time, key)| (key.index() as u8, time)).collect()
}

/// Bytes of the session.
pub fn size(system: &System) -> usize {
    LEAST + 8 * others(system).len() + 9 * waiting(system).len() + 24 * system.sound.events.len()
}

#[derive(Default)]
struct Writer(Vec<u8>);

impl Writer {
    fn count(&mut self, count: usize) {
        self.0.extend((count as u32).to_le_bytes());
    }

    fn byte(&mut self, byte: impl Into<u8>) {
        self.0.push(byte.into());
    }

    fn word(&mut self, word: u32) {
        self.0.extend(word.to_le_bytes());
    }

    fn long(&mut self, long: u64) {
        self.0.extend(long.to_le_bytes());
    }

    fn double(&mut self, double: f64) {
        self.long(double.to_bits());
    }
}

/// What the data bytes of a transaction would AND into a page.
fn page(bytes: &[u8]) -> [u8; PAGE] {
    let mut page = [0xFF; PAGE];
    for (at, byte) in bytes.iter().enumerate().skip(HEADER) {
        page[(bytes[HEADER - 1] as usize + at - HEADER) % PAGE] &= byte;
    }
    page
}

/// All that comes before the memories, and where each section begins.
pub fn head(system: &System) -> (Vec<u8>, Vec<usize>) {
    let mut to = Writer::default();
    let mut at = vec![0];
    to.count(6);
    system.timers.iter().for_each(|timer| to.double(timer.start));
    system.timers.iter().for_each(|timer| to.byte(timer.pending));

    at.push(to.0.len());
    let rest = others(system);
    to.count(rest.len());
    own_words().for_each(|word| to.word(system.reg(word)));
    for word in rest {
        to.word(word);
        to.word(system.reg(word));
    }

    at.push(to.0.len());
    to.count(2);
    to.byte(system.adc_converting);
    to.byte(system.powered_off);

    at.push(to.0.len());
    let lcd = &system.lcd;
    to.count(45);
    to.word(lcd.cmd.map_or(256, u32::from));
    let come = if lcd.cmd == Some(0x2C) { 0 } else { lcd.args.len().min(4) };
    (0..4).for_each(|n| to.byte(if n < come { lcd.args[n] } else { 0 }));
    to.byte(come as u8);
    [lcd.x0, lcd.x1, lcd.y0, lcd.y1, lcd.x, lcd.y].into_iter().for_each(|n| to.word(n));
    to.word(lcd.half.map_or(256, u32::from));
    to.long(lcd.frames);

    at.push(to.0.len());
    to.count(328);
    [system.now, system.game_time, system.turbo].into_iter().for_each(|n| to.double(n));
    to.double(system.rtc_irq.tod_set_at);
    to.double(system.rtc.base_time);
    to.long(system.rtc_irq.fired);
    to.word(system.rtc_irq.tod_base as u32);
    to.long(lcd.last_vsync);
    to.long(system.rtc.base_ticks as u64);
    to.word(system.rtc.data_out);
    to.0.extend(system.rtc.regs);

    at.push(to.0.len());
    to.count(2);
    to.double(system.sound.state.0);
    to.double(system.sound.state.1);

    at.push(to.0.len());
    let (flash, bytes) = (&system.flash, &system.flash.buf);
    to.count(276);
    to.byte(flash.cs);
    to.byte(flash.wel);
    to.long(flash.writes);
    to.byte(flash.rx as u8);
    (0..HEADER).for_each(|n| to.byte(bytes.get(n).copied().unwrap_or(0)));
    to.word(bytes.len() as u32);
    to.byte(bytes.len() > HEADER + PAGE);
    to.0.extend(page(bytes));

    at.push(to.0.len());
    to.count(28);
    system.live_keys.into_iter().for_each(|down| to.byte(down));
    to.byte(system.gpio_applied[1] as u8);
    system.hold_until.into_iter().for_each(|until| to.double(until));

    at.push(to.0.len());
    let presses = waiting(system);
    to.count(presses.len());
    for (key, time) in presses {
        to.byte(key);
        to.double(time);
    }

    at.push(to.0.len());
    to.count(system.sound.events.len());
    for &(time, frequency, duty) in &system.sound.events {
        [time, frequency, duty].into_iter().for_each(|n| to.double(n));
    }
    at.push(to.0.len());
    (to.0, at)
}

/// The memories' sections of a saved session: where their bytes stand.
pub fn memories_in(saved: &[u8]) -> [&[u8]; 4] {
    let behind: usize = LENGTHS.iter().map(|length| 4 + length).sum();
    let mut at = saved.len() - behind;
    LENGTHS.map(|length| {
        at += 4 + length;
        &saved[at - length..at]
    })
}
