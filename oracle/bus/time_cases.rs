//! Cases of the fixed list about timers, sound and keys.

use super::keys::fill_presses;
use super::list::List;
use super::map::TONE_WORDS;
use super::timers::*;
use crate::common::device::timer_word;
use crate::common::edges::off;
use crate::common::generator::expect;
use crate::common::numbers::*;

/// Each with its own reload and rate, about the end of a period, and then
/// with another clock.
pub fn six_timers(list: &mut List) {
    let reloads = [0x0000, 0xFFFF, 0xFC18, 0xABCD_8000, 0x0001, 0xFFFE];
    for (timer, reload) in reloads.into_iter().enumerate() {
        list.write(timer_word(timer, RELOAD_AT), reload);
        list.write(timer_word(timer, CONTROL_AT), 0x6000 + timer as u32 % 2);
    }
    for time in [1000.0 / 12e6, 65_536.0 / 12e6, 0.699_05, 2.0] {
        list.advance(off(time, -1));
        for timer in [0, 2, 4] {
            list.read(timer_word(timer, COUNTER_AT));
        }
        list.advance(time);
        for timer in 0..6 {
            list.read(timer_word(timer, COUNTER_AT));
        }
    }
    for timer in 0..6 {
        list.read(timer_word(timer, CONTROL_AT));
    }
    for clock in [1, 24_000_001, u32::MAX] {
        list.write(SYSCLK_VAR, clock);
        list.pass(0.01);
        for timer in 0..6 {
            list.read(timer_word(timer, COUNTER_AT));
        }
        list.next();
    }
    for (size, at) in [(1, 0), (1, 1), (1, 2), (2, 0), (2, 1), (4, 1), (4, 3)] {
        list.read_sized(size, timer_word(2, COUNTER_AT) + at);
        list.read_sized(size, timer_word(2, CONTROL_AT) + at);
    }
}

/// Starting, starting again, standing, and what pending takes.
pub fn timer_controls(list: &mut List) {
    list.write(timer_word(1, COUNTER_AT), 0x1234_5678);
    list.write(timer_word(1, RELOAD_AT), 0xFFF0);
    for control in [0x2000, 0x6000, 0x4000, 0x6000, 0xE001, 0xA000, 0x8000, 0x6000] {
        list.write(timer_word(1, CONTROL_AT), control);
        list.read(timer_word(1, COUNTER_AT));
        list.pass(0.0007);
        list.read(timer_word(1, CONTROL_AT));
        list.read(timer_word(1, COUNTER_AT));
        list.pending();
    }
    // Byte for byte: the run bit goes up by the second write.
    list.write(timer_word(1, CONTROL_AT), 0x8000);
    list.write_sized(1, timer_word(1, CONTROL_AT), 0x01);
    list.write_sized(1, timer_word(1, CONTROL_AT) + 1, 0x60);
    list.pass(0.01);
    list.read(timer_word(1, CONTROL_AT));
    list.read(timer_word(1, COUNTER_AT));
    list.write_sized(1, timer_word(1, CONTROL_AT), 0x00);
    list.read(timer_word(1, CONTROL_AT));
}

/// The three words by each size, duties at their ends, other clocks.
pub fn tones(list: &mut List) {
    let [control, reload, compare] = TONE_WORDS;
    expect(list.take(), NO_EVENT, [0, 0, 0]);
    list.turbo(3.0);
    list.advance(0.75);
    for (size, address, value) in [
        (4, control, 0x2000),
        (2, reload, 0xFC18),
        (4, compare, 0xFFE0),
        (2, compare, 0xFE0C),
        (1, reload, 0x19),
        (4, compare, 0),
        (1, compare + 1, 0x80),
        (2, reload + 2, 0x1234),
        (1, control, 0x01),
        (4, control, 0),
        (4, reload, 0xFFEC),
        (4, control, 0xA001),
    ] {
        list.write_sized(size, address, value);
        list.pass(0.01);
    }
    // No other timer is a reason to look at the tone again.
    list.write(SYSCLK_VAR, 12_345);
    for timer in [0, 3, 5] {
        list.write(timer_word(timer, CONTROL_AT), 0x2000);
    }
    list.write(compare, 0xFFF6);
    list.write(control, 0xA001);
    while list.take().refusal == 0 {}
}

pub fn full_store(list: &mut List) {
    let [control, reload, compare] = TONE_WORDS;
    fill_events(list, 0x8000);
    list.pass(0.1);
    let first = list.system().reg(reload);
    for (size, address, value) in
        [(4, reload, first ^ 1), (2, compare, 0x9000), (4, control, 0x8000), (1, reload + 1, 1)]
    {
        expect(list.write_sized(size, address, value), SOUND_FULL, [0, 0, 0]);
    }
    list.block(control, 0x20);
    // The tone that there is, or none: done.
    for (address, value) in [(reload, first | 0x5555_0000), (control, 0xE000), (control + 4, 1)] {
        expect(list.write(address, value), 0, [0, 0, 0]);
    }
    list.block(control, 0x20);
    list.write(SYSCLK_VAR, 5_000_000);
    expect(list.write(compare, 0), SOUND_FULL, [0, 0, 0]);
    expect(list.write_sized(3, compare, 0), BAD_SIZE, [0, 0, 0]);
    list.take();
    expect(list.write(control, 0), 0, [0, 0, 0]);
    expect(list.write(control, 0x2000), SOUND_FULL, [0, 0, 0]);
    for _ in 0..5 {
        list.take();
    }
    list.write(control, 0x2000);
    list.wipe();
    expect(list.take(), NO_EVENT, [0, 0, 0]);
}

/// Presses, holds and live keys, and the lines that follow at an advance.
pub fn keys_and_lines(list: &mut List) {
    list.write(KEY_LINES, 0x5A5A_5A1B);
    for (key, bit) in [(0, 0x20), (1, 0x40), (2, 0x80)] {
        list.live(key, 1 << 32);
        expect(list.keys(), 0, [1 << key, 0, 0]);
        list.read(KEY_LINES);
        list.pass(0.0);
        expect(list.read(KEY_LINES), 0, [0x5A5A_5A1B | bit, 0, 0]);
        list.live(key, 0);
    }
    list.pass(0.0);
    list.read(KEY_LINES);
    // Bits that are written stay until the keys change.
    for bits in [0xE0, 0x00, 0xFF] {
        list.live(1, bits & 0x20);
        list.write(KEY_LINES, bits as u32);
        list.pass(0.01);
        list.read(KEY_LINES);
        list.pass(0.01);
        list.read(KEY_LINES);
    }
    // Not even the line of a key that stays down comes back.
    list.live(1, 1);
    list.pass(0.01);
    list.write_sized(1, KEY_LINES, 0x11);
    list.pass(0.01);
    list.read(KEY_LINES);
    list.live(1, 0);
    list.digest(2);
    press_and_hold(list);
    no_more_presses(list);
}

fn press_and_hold(list: &mut List) {
    let now = list.now();
    list.press(0, now + 0.1);
    list.press(2, now + 0.2);
    list.hold(1, now + 0.22);
    list.hold(1, now + 0.21);
    for edge in [0.1, 0.2, 0.21, 0.1 + KEY_HOLD, 0.2 + KEY_HOLD] {
        for places in -1..=0 {
            list.advance(off(now + edge, places));
            list.keys();
            list.next();
        }
        list.read(KEY_LINES);
    }
    let (before, time) = (list.now(), list.now() + 0.02);
    list.press(1, before - 0.1);
    list.hold(2, before - 1.0);
    list.keys();
    list.advance(time);
    list.read(KEY_LINES);
}

fn no_more_presses(list: &mut List) {
    list.wipe();
    list.advance(10.0);
    // These have expired, so they take no place.
    for time in [0.0, 9.0, 9.8, 9.849] {
        expect(list.press(1, time), 0, [0, 0, 0]);
    }
    fill_presses(list, 10.05);
    for key in [0, 2] {
        expect(list.press(key, 10.0), KEYS_FULL, [0, 0, 0]);
        expect(list.press(key, 5.0), KEYS_FULL, [0, 0, 0]);
    }
    expect(list.press(3, 10.0), BAD_KEY, [0, 0, 0]);
    expect(list.press(0, -1.0), BAD_TIME, [0, 0, 0]);
    for (time, refusal) in [(10.1, KEYS_FULL), (off(10.05 + KEY_HOLD, -1), KEYS_FULL)] {
        list.advance(time);
        list.keys();
        expect(list.press(0, time), refusal, [0, 0, 0]);
    }
    list.advance(10.05 + KEY_HOLD);
    expect(list.press(0, 10.3), 0, [0, 0, 0]);
    list.keys();
    list.next();
}
