//! A case of the fixed list of scripts: of each device what the whole bus's
//! cases beside it do not show.

use crate::bus::clocks::*;
use crate::bus::flash::*;
use crate::bus::list::List;
use crate::bus::panel::{command, dma};
use crate::common::device::timer_word;
use crate::common::numbers::*;

pub fn devices(list: &mut List) {
    panel(list);
    clocks(list);
    timers(list);
    flash(list);
}

/// A window of two by two pixels, painted more than once.
fn panel(list: &mut List) {
    command(list, COLUMNS, &[0, 5, 0, 6]);
    command(list, ROWS, &[0, 126, 0, 127]);
    command(list, PAINT, &[0x11, 0x12, 0x13, 0x14, 0x15, 0x16, 0x17, 0x18, 0x19, 0x1A]);
    for at in [126 * 128 + 5, 126 * 128 + 6, 127 * 128 + 5, 127 * 128 + 6, 5] {
        list.pixel(at);
    }
    list.counters();
    // From odd addresses over the end of GPIO into registers, and from none.
    list.write(REGISTERS_C + 4, 0x8182_8384);
    dma(list, REGISTERS_C - 3);
    for at in [0, 1, 2, 3, 4] {
        list.pixel(at);
    }
    dma(list, 0);
    list.counters();
}

fn clocks(list: &mut List) {
    rtc_write(list, 0x15, 1);
    rtc_write(list, 0x16, 1);
    rtc_write(list, 0x00, 0xFF);
    rtc_read(list, 0x00);
    list.write(RTC_READY, 0x30);
    list.read(RTC_READY);
    list.pass(100.7);
    for register in [0x30, 0x31, 0x32, 0x35] {
        rtc_read(list, register);
    }
    list.write(SPI2_ANSWER, 0x77);
    list.write(SPI2_SEND, 0x88);
    list.read(SPI2_ANSWER);
    list.read(SPI2_STATUS);
}

/// Running again is no start, and the acknowledging bit is not kept.
fn timers(list: &mut List) {
    list.write(timer_word(3, RELOAD_AT), 1);
    list.write(timer_word(3, CONTROL_AT), 0x6000);
    list.pass(0.013);
    list.write(timer_word(3, CONTROL_AT), 0xE000);
    list.pass(0.001);
    list.read(timer_word(3, COUNTER_AT));
    list.read(timer_word(3, CONTROL_AT));
    list.next();
}

fn flash(list: &mut List) {
    list.write(FLASH_BASE + 0x2FFC, 0x0102_0304);
    list.write(FLASH_BASE + 0xFFFC, 0x0506_0708);
    for bytes in [&[0x06][..], &[0x20, 0, 0x2F, 0xFF, 0], &[0x03, 0, 0x2F, 0xFE, 0, 0]] {
        frame(list, bytes);
    }
    list.counters();
    // Nothing is selected when the bytes come, so they enable nothing.
    list.write(SPIFC_SELECT, FLASH_SELECTED);
    list.write(SPIFC_SELECT, 0);
    list.write(SPIFC_SEND, 0x06);
    list.write(SPIFC_SELECT, 0);
    frame(list, &[0x05, 0]);
    for bytes in [&[0x06][..], &[0xC7], &[0x05, 0]] {
        frame(list, bytes);
    }
    list.read(FLASH_BASE + 0xFFFC);
    list.counters();
}
