//! The device of document 000, included unchanged, and how the harnesses
//! start it. A program makes these names and those of its sizes, `small.rs` or
//! `full.rs`, its crate root's own, for there the device looks for them.

use super::numbers;

// Written by `build`: declares the modules `cpu` and `sys` by the paths of
// their sources.
include!(env!("ORACLE_DEVICE"));

pub use numbers::{FLASH_BASE, SRAM_BASE};
pub const SRAM_SIZE: usize = numbers::SRAM_BYTES;

macro_rules! same {
    ($($name:ident)*) => { $(const _: () = assert!(numbers::$name == sys::$name);)* };
}

// A number of the harnesses that is not the device's own does not compile.
same! {
    GPIO_BASE TIMER_BASE TIMER_COUNT TIMER_IRQ SOUND_TIMER RTC_IRQ_BASE RTC_IRQ RTC_TICK_BIT
    SPI2_BASE SPI2_IDLE RTC_BUS ADC_BASE ADC_IRQ ADC_BATTERY SPIFC_BASE POWER_REG CLOCK_SWITCH
    CLOCK_STATUS INTC_PENDING INTC_PENDING_FIQ INTC_MASK INTC_DISABLE LCD_BASE LCD_IRQ LCD_W LCD_H
    VSYNC_HZ SYSCLK_VAR KEY_HOLD
}
const _: () = assert!(numbers::GPIO_BYTES == sys::GPIO_SIZE);

/// The address of a timer's word.
pub const fn timer_word(timer: usize, word: u32) -> u32 {
    numbers::TIMER_BASE + numbers::TIMER_STEP * timer as u32 + word
}

/// The fresh state; RAM begins with `image`, and the rest is zero.
pub fn fresh(image: &[u8]) -> sys::System {
    let mut system = sys::System::new(image);
    // Both only serve to stop a processor that does not run here.
    system.infrared_armed = false;
    system.flash_first_use = false;
    system
}
