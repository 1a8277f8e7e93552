//! Cases of the fixed list about memories and register words.

use super::kinds::{READ, WRITE};
use super::list::List;
use super::map::{own_words, NEVER_STORED, OTHER_WORD};
use super::memory::STRAY;
use crate::common::device::timer_word;
use crate::common::generator::expect;
use crate::common::numbers::*;

const SIZES: [u64; 3] = [1, 2, 4];

/// Each memory at its start and its end, by each size.
pub fn memories(list: &mut List) {
    for (base, last) in [
        (FLASH_BASE, FLASH_BASE + 0xFFFF),
        (SRAM_BASE, SRAM_BASE + 0xFFFF),
        (GPIO_BASE, REGISTERS_C - 1),
    ] {
        list.write(base, 0x8384_8586);
        list.write(base + 5, 0xA1A2_A3A4);
        for (at, size) in [0, 1, 3].into_iter().zip(SIZES) {
            list.write_sized(size, base + 4 * at, 0x1122_3344 + at);
            list.read_sized(size, base + at + 1);
        }
        list.read(base);
        list.read(base + 6);
        list.write(last - 3, 0xD1D2_D3D4);
        // These pass the end: all but the first.
        for (size, address) in [(1, last), (2, last), (4, last - 2)] {
            list.write_sized(size, address, 0x5152_5354);
            list.read_sized(size, address);
        }
        list.read(last - 3);
    }
    // In the paper's memories, past the end of those that are here.
    for (size, address) in
        [(2, FLASH_BASE + 0x1_0000), (4, RAM_END - 4), (4, RAM_END - 1), (4, SRAM_BASE + 0x1_0000)]
    {
        expect(list.write_sized(size, address, u32::MAX), 0, [0, 0, 0]);
        expect(list.read_sized(size, address), 0, [0, 0, 0]);
    }
    list.step(WRITE + 4, u64::from(FLASH_BASE) + 0x100, 0x1111_2222_3333_4444);
    expect(list.read(FLASH_BASE + 0x100), 0, [0x3333_4444, 0, 0]);
    for memory in [0, 1, 2, 7] {
        list.digest(memory);
    }
}

/// Refused, and read as 0; a bad size comes first.
pub fn strays(list: &mut List) {
    for (at, address) in STRAY.into_iter().enumerate() {
        expect(list.write_sized(SIZES[at % 3], address, u32::MAX), STRAY_WRITE, [0, 0, 0]);
        if at % 2 == 0 {
            expect(list.read_sized(SIZES[(at + 1) % 3], address), 0, [0, 0, 0]);
        }
    }
    for (at, size) in [0, 3, 5, 6, 7, 8, 9, 15].into_iter().enumerate() {
        let address = [0, FLASH_BASE, OTHER_WORD, POWER_REG][at % 4];
        for kind in [READ, WRITE] {
            expect(list.step(kind + size, address.into(), 0xFFFF_FFFE), BAD_SIZE, [0, 0, 0]);
        }
    }
    list.counters();
    list.read(OTHER_WORD);
    // The first byte decides: this one is a register, and the rest is lost.
    for address in [REGISTERS_C_END - 2, REGISTERS_D_END - 1, REGISTERS_F_END - 3] {
        list.write(address, 0x6162_6364);
        list.read(address & !3);
    }
}

pub fn peeks_and_blocks(list: &mut List) {
    list.poke(FLASH_BASE + 3, 0x1234_5678);
    list.poke(SRAM_BASE + 0xFFFC, 0x9ABC_DEF0);
    list.write(REGISTERS_C, 0x7172_7374);
    // Only what lies in GPIO is poked, and only what is not stray.
    for address in [REGISTERS_C - 2, GPIO_BASE - 2, FLASH_BASE - 3, OTHER_WORD, 0xFFFF_FFFE] {
        list.poke(address, 0x8182_8384);
        list.peek32(address);
        list.peek8(address + 1);
    }
    list.write(REGISTERS_C_END - 4, 0x9192_9394);
    list.write(REGISTERS_D, 0xA1A2_A3A4);
    list.write(REGISTERS_F_END - 4, 0xB1B2_B3B4);
    list.write(REGISTERS_F, 0xC1C2_C3C4);
    blocks(list);
    // Peeks and blocks of registers show what is stored.
    list.write(INTC_PENDING, 0x1234_5678);
    list.peek32(INTC_PENDING);
    list.peek8(INTC_PENDING + 1);
    list.block(INTC_PENDING, 4);
    list.read(INTC_PENDING);
}

/// In each place, over every seam, and longer than they can be.
fn blocks(list: &mut List) {
    for (address, length) in [
        (FLASH_BASE, 65_536),
        (FLASH_BASE + 3, 4),
        (SRAM_BASE + 0xFFF0, 16),
        (GPIO_BASE, 4096),
        (GPIO_BASE + 1, 4096),
        (REGISTERS_C, 0),
        (FLASH_BASE - 0x10, 40),
        (0x3000_0000, 65_536),
        (0x3000_0001, 65_536),
        (REGISTERS_C_END - 0x10, 300),
        (REGISTERS_D - 0x10, 300),
        (REGISTERS_F - 1, 300),
        (REGISTERS_F_END - 0x10, 65_536),
        (0xFFFF_FFFF, 2),
        (REGISTERS_F_END, 16),
        (FLASH_BASE, 65_537 + 8),
        (FLASH_BASE, 65_537),
    ] {
        list.block(address, length);
    }
}

/// Each size at each alignment over a word that is full, and read likewise.
pub fn merged_words(list: &mut List) {
    let word = OTHER_WORD;
    for (size, address) in SIZES.into_iter().flat_map(|s| (0..4).map(move |at| (s, word + at))) {
        list.write(word, 0x8586_8788);
        list.read_sized(size, address);
        list.write_sized(size, address, 0x1122_3344);
        list.read(word);
    }
    list.read(word + 4);
    // The same over words that do something when they are written.
    for (size, at) in [(1, 0), (2, 3), (4, 2)] {
        for word in [RTC_IRQ_STATUS, LCD_STATUS, ADC_CONTROL, TIMER_BASE, SPI2_SEND] {
            list.write_sized(size, word + at, 0x0000_0203);
            list.read(word);
        }
        list.pass(1.0);
    }
}

/// What is stored in all own words, by few steps.
pub fn look_stored(list: &mut List) {
    for (word, length) in [
        (TIMER_BASE, 0xC0),
        (RTC_IRQ_BASE, 0x5C),
        (SPI2_BASE, 0x14),
        (RTC_BUS, 0x18),
        (ADC_BASE, 0x0C),
        (SPIFC_BASE, 0x10),
        (REGISTERS_D, 0x7C),
        (0xD010_0000, 0x3C),
        (LCD_BASE, 0x340),
    ] {
        list.block(word, length);
    }
}

/// Written, and read whole and in part.
pub fn every_own_word(list: &mut List) {
    list.pass(1.5);
    for (at, word) in own_words().chain(NEVER_STORED).enumerate() {
        let (size, part) = (SIZES[at % 3], at as u32 / 3 % 4);
        list.write_sized(size, word + part, 0x0807_0605u32.wrapping_mul(at as u32 + 1) & !1);
        if at >= 48 {
            list.read(word);
        }
    }
    look_stored(list);
    for word in [TIMER_BASE, timer_word(0, COUNTER_AT), RTC_OUT, SPIFC_ANSWER] {
        for (size, part) in [(1, 1), (2, 1), (4, 3), (4, 0)] {
            list.read_sized(size, word + part);
        }
    }
    list.counters();
}
