//! Cases of the fixed list about next events, limits and wiping.

use super::clocks::{rtc_read, rtc_write};
use super::flash::frame;
use super::kinds::{ADVANCE, HOLD, LIVE, PRESS};
use super::list::List;
use super::map::OTHER_WORD;
use super::panel::{command, dma};
use super::wipes::probe;
use crate::common::device::timer_word;
use crate::common::edges::{off, TIME_EDGES, TURBO_EDGES};
use crate::common::generator::expect;
use crate::common::numbers::*;

/// To the next event.
fn go(list: &mut List) {
    let next = f64::from_bits(list.next().words[0]);
    list.advance(next);
    list.pending();
}

/// Each of the things that come next, one after the other.
pub fn next_events(list: &mut List) {
    for _ in 0..2 {
        go(list);
    }
    for (turbo, seconds) in [(60.0, 0.01), (1000.5, 0.0005), (0.1, 3.0)] {
        list.turbo(turbo);
        list.pass(seconds);
        go(list);
        go(list);
    }
    list.turbo(1.0);
    let now = list.now();
    list.press(0, now + 0.002);
    list.hold(1, now + 0.003);
    list.write(timer_word(5, RELOAD_AT), 0xE000);
    list.write(timer_word(5, CONTROL_AT), 0x6000);
    list.write(timer_word(2, CONTROL_AT), 0x2000);
    for _ in 0..6 {
        go(list);
        list.keys();
        list.write(timer_word(5, CONTROL_AT), 0xE000);
    }
    // A pending timer comes now, masked or not, while it is enabled.
    list.write(INTC_MASK, u32::MAX);
    list.pass(0.01);
    for control in [0x6000, 0x2000, 0x4000, 0x6000, 0xE000] {
        list.write(timer_word(5, CONTROL_AT), control);
        list.next();
    }
    list.write(SYSCLK_VAR, 1);
    list.next();
    list.write(ADC_CONTROL, 0x4000);
    go(list);
    list.next();
    lines_come_now(list);
}

/// A line that is wanted comes now, whatever else is to come.
fn lines_come_now(list: &mut List) {
    list.write(INTC_MASK, 0);
    list.write(LCD_ENABLE, 0x2000);
    list.pass(0.02);
    list.next();
    list.write(INTC_DISABLE, 1);
    list.next();
    list.write(INTC_DISABLE, 0);
    list.write(LCD_STATUS, 0x2000);
    list.next();
    // Presses and holds that begin now or before.
    let now = list.now();
    for time in [now, off(now, -1), off(now, 1)] {
        list.press(2, time);
        list.hold(0, time);
        list.next();
    }
}

pub fn limits_of_time(list: &mut List) {
    for (at, time) in TIME_EDGES.into_iter().enumerate() {
        list.step([HOLD, PRESS][at % 2], 1, time);
        list.step(ADVANCE, 0, time);
    }
    list.keys();
    list.wipe();
    for (kind, key) in [(LIVE, 3), (HOLD, 3), (PRESS, 255), (LIVE, 0xFFFF_FFFF), (HOLD, 256)] {
        expect(list.step(kind, key, f64::NAN.to_bits()), BAD_KEY, [0, 0, 0]);
    }
    for turbo in TURBO_EDGES {
        if list.turbo(turbo).refusal == 0 {
            list.next();
        }
    }
    list.turbo(1.0);
    for (places, refusal) in [(0, 0), (-1, BAD_TIME), (0, 0), (1, 0), (0, BAD_TIME)] {
        expect(list.advance(off(1.5, places)), refusal, [0, 0, 0]);
    }
    game_times(list);
}

/// The most that game time reaches: by one advance, by some, and by two whose
/// rounding leaves it half a place above 1024 times the time, so that the last
/// sum is halfway between the limit and the next number, and becomes the limit.
fn game_times(list: &mut List) {
    let ahead = [0x4116_7543_F2DD_B19E, 0x4137_3D25_676A_0151].map(f64::from_bits);
    for times in [&[][..], &[1e-10, 0.7, 1e6, LAST_TIME.next_down()], &ahead] {
        list.wipe();
        list.turbo(FASTEST);
        for &time in times {
            list.advance(time);
            list.read(RTC_SECONDS);
            list.next();
        }
        expect(list.advance(LAST_TIME), 0, [0, 0, 0]);
        list.next();
        // 2^31 seconds are 24,855 days and 11,648 seconds.
        expect(list.read(RTC_HOURS), 0, [3, 0, 0]);
        expect(list.read(RTC_MINUTES), 0, [14, 0, 0]);
        expect(list.read(RTC_SECONDS), 0, [8, 0, 0]);
        expect(list.advance(LAST_TIME), 0, [0, 0, 0]);
    }
}

/// Everything is changed, and then nothing is left of it.
pub fn wiping(list: &mut List) {
    for memory in [FLASH_BASE, SRAM_BASE, GPIO_BASE, OTHER_WORD] {
        list.write(memory, 0x1234_5678);
    }
    list.write(POWER_REG, 0);
    dma(list, FLASH_BASE);
    command(list, COLUMNS, &[0, 5, 0, 6]);
    command(list, PAINT, &[1, 2, 3, 4, 5]);
    frame(list, &[0x06]);
    frame(list, &[0x9F, 0]);
    list.write(SPIFC_SELECT, FLASH_SELECTED);
    rtc_write(list, 0x15, 0x99);
    rtc_read(list, 0x15);
    list.write(RTC_HOURS, 7);
    list.turbo(7.0);
    list.live(0, 1);
    list.hold(1, 1e6);
    list.press(2, 0.3);
    list.write(timer_word(4, CONTROL_AT), 0x2000);
    list.write(timer_word(0, CONTROL_AT), 0x6001);
    list.advance(100.1);
    list.write(ADC_CONTROL, 0x4040);
    list.wipe();
    probe(list);
}
