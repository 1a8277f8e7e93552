//! Cases of the fixed list about clocks and the small devices.

use super::clocks::*;
use super::list::List;
use super::map::NEVER_STORED;
use crate::common::numbers::*;

/// Registers with a meaning and without, staging, alarm, and the count.
pub fn rtc_registers(list: &mut List) {
    for register in [0x00, 0x01, 0x2F, 0x36, 0x40, 0xFF] {
        rtc_write(list, register, 0xFF - register / 2);
        rtc_read(list, register);
    }
    for (at, register) in [0x10, 0x11, 0x12, 0x13, 0x14, 0x30, 0x35, 0x15].into_iter().enumerate() {
        rtc_write(list, register, 0x91 + 7 * at as u32);
        if at % 3 == 1 {
            rtc_read(list, 0x30);
        }
    }
    for turbo in [1000.5, FASTEST] {
        list.turbo(turbo);
        list.pass(12.3);
        rtc_read(list, 0x30);
        rtc_write(list, 0x15, 0x80);
        rtc_read(list, 0x30);
    }
    list.pass(1.0);
    for register in 0x30..=0x35 {
        rtc_read(list, register);
    }
    rtc_commands(list);
}

/// Both bits write; none does nothing; what stands above is ignored.
fn rtc_commands(list: &mut List) {
    for (data, command) in [(0x61, 3), (0x63, 0xFFFF_FFFC), (0x64, 0xFFFF_FFFD)] {
        list.write(RTC_ADDRESS, 0xABCD_EF80);
        list.write(RTC_DATA, 0x1234_5600 | data);
        list.write(RTC_COMMAND, command);
        list.read(RTC_OUT);
        rtc_read(list, 0x80);
    }
    // A write above the low byte gives the same command again.
    list.write(RTC_ADDRESS, 0x40);
    list.write_sized(1, RTC_COMMAND + 1, 1);
    for word in [RTC_ADDRESS, RTC_DATA, RTC_COMMAND, RTC_READY, RTC_OUT] {
        list.read(word);
        list.write_sized(2, word + 2, 0x5678);
        list.read(word);
        list.peek32(word);
    }
}

/// Fields written at each size, far out of range, and across midnight.
pub fn day(list: &mut List) {
    list.turbo(3.0);
    list.pass(3.5);
    for (size, at, value) in [(4, 0, 0x7FFF_FFFF), (2, 0, 0xFFFF), (1, 1, 1), (4, 2, 23)] {
        for word in NEVER_STORED {
            list.write_sized(size, word + at, value);
            list.read(word);
        }
        list.peek32(NEVER_STORED[0]);
    }
    for (word, value) in NEVER_STORED.into_iter().zip([59, 59, 23]) {
        list.write(word, value);
    }
    // The hours are cut before they count, so no place is lost.
    list.write(NEVER_STORED[2], u32::MAX);
    for seconds in [0.9999, 0.0001] {
        list.pass(seconds / 3.0);
        list.read(NEVER_STORED[0]);
    }
    list.write(NEVER_STORED[2], 23);
    list.turbo(60.0);
    for seconds in [0.99, 0.01, 59.0, 3600.0, 86_399.0] {
        list.pass(seconds / 60.0);
        for word in NEVER_STORED {
            list.read(word);
        }
        list.read_sized(1, NEVER_STORED[0]);
        list.read_sized(2, NEVER_STORED[1] + 1);
        list.read(RTC_IRQ_STATUS);
        list.write(RTC_IRQ_STATUS, 2);
    }
}

/// Each combination of what does something, over the one before it.
pub fn adc_controls(list: &mut List) {
    list.write(ADC_RESULT, 0x1234_5678);
    for control in [0x4040, 0x0040, 0x4000, 0x4000, 0x8000, 0x40F0, 0x0000, 0xFFFF_FFFF, 0x7F7F] {
        list.write(ADC_CONTROL, control);
        list.read(ADC_CONTROL);
        list.next();
        list.pass(0.0);
        list.read(ADC_CONTROL);
        list.read(ADC_RESULT);
        list.pending();
    }
    list.write_sized(1, ADC_CONTROL + 1, 0x00);
    list.write_sized(1, ADC_CONTROL + 1, 0x40);
    list.write_sized(1, ADC_CONTROL, 0x40);
    list.pass(0.1);
    list.read(ADC_CONTROL);
    list.write_sized(1, ADC_CONTROL, 0x40);
    list.lines();
}

pub fn ports_and_power(list: &mut List) {
    list.write(SPI2_STATUS, 0xFFFF_FFF0);
    for (size, address) in [(4, SPI2_ANSWER), (1, SPI2_ANSWER + 3), (2, SPI2_ANSWER + 1)] {
        list.write(SPI2_ANSWER, 0x1234_5678);
        list.write_sized(1, SPI2_STATUS, 0x0F);
        list.peek32(SPI2_ANSWER);
        list.read(SPI2_STATUS);
        list.read_sized(size, address);
        list.read(SPI2_STATUS);
        list.write_sized(size, SPI2_SEND, 0);
        list.read(SPI2_STATUS);
        list.peek32(SPI2_ANSWER);
    }
    for switch in [0x8000, 0xFFFF_7FFF, 0xFFFF_FFFF] {
        list.write(CLOCK_SWITCH, switch);
        list.write(CLOCK_STATUS, switch);
        list.read(CLOCK_STATUS);
        list.read_sized(1, CLOCK_STATUS + 1);
        list.peek32(CLOCK_STATUS);
        list.read(CLOCK_SWITCH);
    }
    for (size, at, value) in [(4, 0, 1), (4, 0, 0xFFFF_FFFF), (1, 1, 0), (1, 0, 2), (4, 0, 1)] {
        list.write_sized(size, POWER_REG + at, value);
        list.counters();
    }
    list.read(POWER_REG);
    list.pass(1.0);
    list.lines();
}
