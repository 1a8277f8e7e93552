//! Where an address lies, and which register words have storage of their own:
//! the paper's map.

use crate::common::device::timer_word;
use crate::common::numbers::*;
use crate::sys::System;
use crate::{RAM_SIZE, SRAM_LENGTH};

#[derive(Clone, Copy, PartialEq, Eq, Debug)]
pub enum Place {
    Ram,
    Sram,
    Gpio,
    Register,
    Stray,
}

pub fn place(address: u32) -> Place {
    match address {
        FLASH_BASE..RAM_END => Place::Ram,
        SRAM_BASE..SRAM_END => Place::Sram,
        GPIO_BASE..REGISTERS_C => Place::Gpio,
        REGISTERS_C..REGISTERS_C_END => Place::Register,
        REGISTERS_D..REGISTERS_D_END => Place::Register,
        REGISTERS_F..REGISTERS_F_END => Place::Register,
        _ => Place::Stray,
    }
}

/// The words with storage of their own, but for the timers'.
#[rustfmt::skip]
pub const OWN: [u32; 28] = [
    RTC_IRQ_STATUS, RTC_IRQ_ENABLE,
    SPI2_SEND, SPI2_STATUS, SPI2_ANSWER,
    RTC_ADDRESS, RTC_DATA, RTC_COMMAND, RTC_READY, RTC_OUT,
    ADC_CONTROL, ADC_RESULT,
    SPIFC_SELECT, SPIFC_STATUS, SPIFC_SEND, SPIFC_ANSWER,
    CLOCK_SWITCH, CLOCK_STATUS, POWER_REG,
    INTC_PENDING, INTC_PENDING_FIQ, INTC_MASK, INTC_DISABLE,
    LCD_CONTROL, LCD_DATA, LCD_ENABLE, LCD_STATUS, LCD_DMA,
];

/// The words that are never stored: seconds, minutes, hours.
pub const NEVER_STORED: [u32; 3] = [RTC_SECONDS, RTC_MINUTES, RTC_HOURS];

/// A word without storage of its own, such as lists write.
pub const OTHER_WORD: u32 = 0xC010_0000;

/// The words that a tone follows.
pub const TONE_WORDS: [u32; 3] = [
    timer_word(SOUND_TIMER, CONTROL_AT),
    timer_word(SOUND_TIMER, RELOAD_AT),
    timer_word(SOUND_TIMER, COMPARE_AT),
];

pub fn own_words() -> impl Iterator<Item = u32> {
    (0..TIMER_WORDS).map(|at| TIMER_BASE + 4 * at).chain(OWN)
}

/// A word that takes one of the 256 places while it is not zero.
pub fn takes_room(word: u32) -> bool {
    let timers = TIMER_BASE..TIMER_BASE + 4 * TIMER_WORDS;
    !(timers.contains(&word) || OWN.contains(&word) || NEVER_STORED.contains(&word))
}

/// The other words that are not zero, lowest first.
pub fn others(system: &System) -> Vec<u32> {
    let takes = |(&word, &value): (&u32, &u32)| (value != 0 && takes_room(word)).then_some(word);
    let mut words: Vec<u32> = system.regs.iter().filter_map(takes).collect();
    words.sort_unstable();
    words
}

/// What a write makes of the word that it is for.
pub fn merged(system: &System, address: u32, size: u64, value: u32) -> u32 {
    let shift = 8 * (address & 3);
    let mask = match size {
        1 => 0xFF << shift,
        2 => 0xFFFF << shift,
        _ => u32::MAX,
    };
    system.reg(address & !3) & !mask | value << shift & mask
}

fn past_end(address: u32) -> bool {
    match place(address) {
        Place::Ram => (address - FLASH_BASE) as usize >= RAM_SIZE,
        Place::Sram => (address - SRAM_BASE) as usize >= SRAM_LENGTH,
        _ => false,
    }
}

/// Whether a run of bytes, at most 65,536, passes the end of RAM or SRAM where
/// they are short. The device would panic if it went byte for byte.
pub fn passes_end(address: u32, length: u32) -> bool {
    length > 0 && (past_end(address) || past_end(address.wrapping_add(length - 1)))
}
