//! Cases of the fixed list about flash and panel.

use super::flash::*;
use super::list::List;
use super::panel::*;
use crate::common::numbers::*;

/// A transaction without its answers.
fn send(list: &mut List, bytes: &[u8]) {
    list.write(SPIFC_SELECT, FLASH_SELECTED);
    for &byte in bytes {
        list.write(SPIFC_SEND, byte.into());
    }
    list.write(SPIFC_SELECT, 0);
}

/// With write enable and without, with no data, round the page's end, twice.
pub fn programs(list: &mut List) {
    for at in 0..4 {
        list.write(FLASH_BASE + 0x100 + 4 * at, u32::MAX);
        list.write(FLASH_BASE + 0x1F0 + 4 * at, u32::MAX);
    }
    send(list, &with_address(0x02, 0x100, &[0x11]));
    for (address, data) in [
        (0x100, &[][..]),
        (0x101, &[0x5A]),
        (0x1FE, &[0x0F, 0xF1, 0xA5, 0x77]),
        (0xFF_0102, &[0x3C, 0xC3]),
    ] {
        send(list, &[0x06]);
        send(list, &with_address(0x02, address, data));
        list.counters();
        list.block(FLASH_BASE + 0x100, 256);
    }
    frame(list, &[0x05, 0]);
    frame(list, &with_address(0x03, 0xFF_01FE, &[0; 3]));
    frame(list, &with_address(0x0B, 0x01_0100, &[0; 2]));
    // A write above the low byte sends that one again.
    send(list, &[0x06]);
    list.write(SPIFC_SELECT, FLASH_SELECTED);
    for byte in [0x02, 0x00, 0x01, 0x05] {
        list.write(SPIFC_SEND, byte);
    }
    list.write_sized(1, SPIFC_SEND + 1, 0x36);
    list.write(SPIFC_SELECT, 0);
    list.read(FLASH_BASE + 0x104);
    list.digest(0);
}

/// Each erase at lengths that are too short, long enough or longer; write
/// enable comes and goes.
pub fn erases(list: &mut List) {
    for (command, address, length) in [
        (0x20, 0x2345, 3),
        (0x20, 0x2345, 4),
        (0x52, 0x9000, 5),
        (0xD8, 0x4321, 4),
        (0xC7, 0, 1),
        (0x60, 0, 2),
    ] {
        list.write(FLASH_BASE + 0x2FFE, 0);
        list.write(FLASH_BASE + 0xC000, 0x1234);
        send(list, &[0x06]);
        send(list, &with_address(command, address, &[0])[..length]);
        list.digest(0);
        list.counters();
    }
    send(list, &[0x06]);
    send(list, &[0x04]);
    send(list, &with_address(0x20, 0, &[]));
    list.counters();
    unselected_ends(list);
}

/// A deselect while not selected ends nothing, whatever came before it.
fn unselected_ends(list: &mut List) {
    send(list, &[0x06]);
    send(list, &[0x20, 0x00, 0x30]);
    list.write(SPIFC_SEND, 0x00);
    list.read(SPIFC_ANSWER);
    list.write(SPIFC_SELECT, 0);
    list.counters();
    list.digest(0);
    frame(list, &[0x05, 0]);
}

/// Identities and status, second selects, and transfers without a select.
pub fn answers_of_flash(list: &mut List) {
    for (command, first) in [(0xAB, 3), (0x4B, 4), (0x35, 4), (0x77, 5)] {
        list.write(SPIFC_SELECT, FLASH_SELECTED);
        for (at, byte) in [command, 0, 0, 0, 0, 0].into_iter().enumerate() {
            list.write(SPIFC_SEND, byte);
            if at >= first {
                list.read(SPIFC_ANSWER);
            }
        }
        list.write(SPIFC_SELECT, 0);
    }
    list.write(SPIFC_SELECT, FLASH_SELECTED);
    list.write(SPIFC_SEND, 0x9F);
    list.write(SPIFC_SELECT, 0xFFFF_FF40);
    list.write_sized(2, SPIFC_SEND, 0x0100);
    list.read(SPIFC_ANSWER);
    // Only these bytes are not the one with bit 6, or not the low one.
    list.write_sized(1, SPIFC_SELECT + 1, 0);
    list.write_sized(1, SPIFC_SEND + 2, 0x55);
    list.read(SPIFC_ANSWER);
    list.write_sized(1, SPIFC_SELECT, 0xBF);
    list.write(SPIFC_SEND, 0);
    list.read(SPIFC_ANSWER);
    list.write(SPIFC_SELECT, FLASH_SELECTED);
    list.write(SPIFC_SEND, 0x06);
    list.read(SPIFC_ANSWER);
    list.write(SPIFC_SELECT, 0x80);
    for (word, value) in
        [(SPIFC_STATUS, u32::MAX), (SPIFC_ANSWER, 0x1234_5678), (SPIFC_SEND, 0xABCD_EF05)]
    {
        list.write(word, value);
        list.read(word);
        list.peek32(word);
    }
    list.read_sized(1, SPIFC_ANSWER);
    list.read_sized(2, SPIFC_ANSWER + 1);
    list.peek32(SPIFC_SELECT);
}

/// The ways to send, and the controls that do not.
pub fn panel_controls(list: &mut List) {
    command(list, COLUMNS, &[0, 2, 0, 3]);
    command(list, ROWS, &[0, 1, 0, 2]);
    command(list, PAINT, &[0x12]);
    for (control, data) in [
        (SEND_TWO, 0xFFFF_3456),
        (SEND_TWO, 0x789A),
        (SEND_BYTE, 0xFFFF_FFBC),
        (0xA0, 0xDEF0),
        (0x20A0, 0x11),
        (0x80, PAINT.into()),
        (0x91, 0x22),
        (0xB1, 0x33),
        (0x01, 0x66),
        (0xFFFF_FFA1, 0x77),
        (0xFFFF_DFA1, 0x8899),
        (0x4000_00A1, 0xAABB),
    ] {
        list.write(LCD_DATA, data);
        list.write(LCD_CONTROL, control);
        list.digest(3);
        if control >= 0xFFFF || control % 2 == 0 {
            list.read(LCD_CONTROL);
        }
    }
    for at in [128 + 2, 128 + 3, 256 + 2, 256 + 3, 16_384 + 130, 0xFFFF_FFFF] {
        list.pixel(at);
    }
    list.counters();
    short_controls(list);
}

/// The code by one byte, the start by another; and windows of odd ends.
fn short_controls(list: &mut List) {
    for (size, at, control) in [(1, 0, 0x81), (1, 0, 0xA1), (1, 1, 0x20), (2, 0, 0x20A1)] {
        list.write_sized(1, LCD_DATA, PAINT.into());
        list.write_sized(size, LCD_CONTROL + at, control);
        list.read(LCD_CONTROL);
    }
    list.counters();
    for (columns, rows) in [([0, 127, 0, 128], [0, 127, 0, 127]), ([0, 9, 0, 3], [0, 9, 0, 3])] {
        command(list, COLUMNS, &columns);
        command(list, ROWS, &rows);
        command(list, COLUMNS, &[1, 2]);
        command(list, PAINT, &[1, 2, 3, 4, 5, 6]);
        list.digest(3);
        list.counters();
    }
    command(list, ROWS, &[0, 0, 0, 1, 0xFF, 0xFF]);
    command(list, PAINT, &[0xF0, 0x0F]);
    list.digest(3);
}

/// A DMA from each kind of address, and from 0, which copies nothing.
pub fn pictures(list: &mut List) {
    for (at, picture) in PICTURES.into_iter().enumerate() {
        list.write(picture, 0x0102_0304 * (at as u32 + 1));
    }
    list.poke(FLASH_BASE, 0x1111_0001);
    list.poke(FLASH_BASE + 0x7FFE, 0x2222_0002);
    list.poke(FLASH_BASE + 0xFFFC, 0x3333_0003);
    list.poke(SRAM_BASE + 0x7FFC, 0x4444_0004);
    list.poke(REGISTERS_C - 4, 0x5555_0005);
    for picture in PICTURES.into_iter().chain([0, 1, 0x3000_0000, 0]) {
        dma(list, picture);
        list.digest(3);
    }
    list.counters();
    for run in [0xD0, 0x20D1, 0x00D3] {
        list.write(LCD_DMA, FLASH_BASE);
        list.write(LCD_STATUS, u32::MAX);
        list.write(LCD_CONTROL, run);
        list.read(LCD_STATUS);
        list.read(LCD_CONTROL);
        list.counters();
    }
    for at in [0, 1, 16_383] {
        list.pixel(at);
    }
    // A DMA leaves the pen and a held byte alone.
    command(list, PAINT, &[1, 2, 3]);
    dma(list, 0x3000_0000);
    list.write(LCD_DATA, 4);
    list.write(LCD_CONTROL, SEND_BYTE);
    list.digest(3);
}
