//! Lists for the RTC chip, the time of day with its 1 Hz tick, and the ADC.

use crate::common::edges::{BYTES, FIELDS};
use crate::common::numbers::*;
use crate::families::Author;

const RTC_WRITE: u32 = 1;
const RTC_READ: u32 = 2;

/// The bits of the ADC's control that do something, but for its interrupt.
const ADC_BITS: [u32; 5] = [0x10, 0x20, 0x80, 0x4000, 0x8000];

/// One of the 32 combinations of these bits.
pub fn adc_bits(combination: u64) -> u32 {
    let chosen = |&(at, _): &(usize, u32)| combination >> at & 1 != 0;
    ADC_BITS.into_iter().enumerate().filter(chosen).map(|(_, bit)| bit).sum()
}

pub fn rtc(author: &mut Author) {
    match author.random.below(20) {
        0..=2 => {
            let register = author.next_register as u8;
            author.next_register += 1;
            author.rtc_register(register);
        }
        3 => author.stage_in_order(),
        4 => author.stage_one(),
        5 => author.count(),
        6 => author.rtc_register(0x00),
        7..=9 => author.alarm(),
        10 => author.odd_command(),
        11 => author.change_turbo(),
        _ => author.rtc_passes(),
    }
}

pub fn day(author: &mut Author) {
    match author.random.below(12) {
        0..=2 => author.set_field(),
        3 => {
            let ones = author.value(&[0, 1, 2, 3, 0xFFFF_FFFD, u32::MAX]);
            author.list.write(RTC_IRQ_STATUS, ones);
            author.list.read(RTC_IRQ_STATUS);
        }
        4 => {
            let enable = author.value(&[0, 1, 2, 3, u32::MAX]);
            author.list.write(RTC_IRQ_ENABLE, enable);
            author.list.read(RTC_IRQ_ENABLE);
        }
        5 => author.change_turbo(),
        6 => author.fields(),
        _ => author.day_passes(),
    }
}

/// Two values of the control, one after the other, and what time makes of
/// them.
pub fn adc(author: &mut Author) {
    let pair = author.next_pair;
    author.next_pair += 1;
    author.adc_control(adc_bits(pair));
    if author.random.one_in(2) {
        author.pass();
    }
    author.list.read(ADC_CONTROL);
    author.adc_control(adc_bits(pair >> 5));
    author.list.look(0xA);
    if author.random.one_in(8) {
        let value = author.random.next() as u32;
        author.list.write(ADC_RESULT, value);
        author.list.read(ADC_RESULT);
    }
    if !author.random.one_in(4) {
        author.pass();
        author.list.read(ADC_CONTROL);
        author.list.read(ADC_RESULT);
        author.list.look(0xA);
    }
}

impl Author {
    /// One command over the bus; only the low bytes of its two words count.
    fn bus(&mut self, register: u8, data: u8, command: u32) {
        let high = if self.random.one_in(3) { self.random.next() as u32 & !0xFF } else { 0 };
        self.list.write(RTC_ADDRESS, high | u32::from(register));
        // A read leaves the data alone, whatever stands there.
        if command & 1 != 0 || self.random.one_in(4) {
            self.list.write(RTC_DATA, high.rotate_left(8) & !0xFF | u32::from(data));
        }
        let others = if self.random.one_in(4) { self.random.next() as u32 & !3 } else { 0 };
        self.list.write(RTC_COMMAND, command | others);
    }

    fn bus_read(&mut self, register: u8) {
        self.bus(register, 0, RTC_READ);
        self.list.read(RTC_OUT);
    }

    fn data(&mut self) -> u8 {
        if self.random.one_in(3) {
            self.random.byte()
        } else {
            self.random.pick(&BYTES)
        }
    }

    fn rtc_register(&mut self, register: u8) {
        let data = self.data();
        self.bus(register, data, RTC_WRITE);
        self.bus_read(register);
    }

    fn stage_in_order(&mut self) {
        for register in 0x10..=0x15 {
            let data = self.data();
            self.bus(register, data, RTC_WRITE);
        }
        self.list.look(0x8);
        self.list.look(0xC);
    }

    /// Only the last register latches, whatever the others hold by then.
    fn stage_one(&mut self) {
        let register = 0x10 + self.random.below(6) as u8;
        let data = self.data();
        self.bus(register, data, RTC_WRITE);
        self.list.look(0x8);
        self.list.look(0xC);
    }

    /// The whole count, byte for byte.
    pub fn count(&mut self) {
        for register in 0x30..=0x35 {
            self.bus_read(register);
        }
        self.list.look(0xC);
    }

    fn alarm(&mut self) {
        let register = self.random.pick(&[0x20, 0x21, 0x22, 0x23, 0x24, 0x25, 0x40, 0x40]);
        let data = self.data() ^ self.random.below(8) as u8;
        self.bus(register, data, RTC_WRITE);
        self.list.look(0xB);
    }

    /// Both bits, none, and words of the bus that read as something else.
    fn odd_command(&mut self) {
        let register = self.random.byte();
        let data = self.data();
        let command = self.random.pick(&[0, 3]);
        self.bus(register, data, command);
        let word = self.random.pick(&[RTC_READY, RTC_OUT]);
        self.list.write(word, data.into());
        for word in [RTC_ADDRESS, RTC_DATA, RTC_COMMAND, RTC_READY, RTC_OUT] {
            self.list.read(word);
        }
        self.list.look(0x8);
    }

    fn rtc_passes(&mut self) {
        if self.random.one_in(3) {
            self.pass();
        } else {
            let more = self.random.pick(&[0, 1, 1, 2, 255, 256, 32_768, 1 << 24]) as f64;
            let device = &self.list.device;
            let gone = ((device.game_time - device.rtc.base_time) * 32768.0).floor();
            self.go_game(device.rtc.base_time + (gone + more) / 32768.0);
        }
        self.list.look(0xC);
        let register = 0x30 + self.random.below(6) as u8;
        self.bus_read(register);
    }

    fn set_field(&mut self) {
        let word = RTC_IRQ_BASE + 4 * self.random.below(3) as u32;
        let value = self.value(&FIELDS);
        self.list.write(word, value);
        self.fields();
        self.list.look(0x9);
    }

    pub fn fields(&mut self) {
        for word in [0x00, 0x04, 0x08] {
            self.list.read(RTC_IRQ_BASE + word);
        }
        self.list.look(0xC);
    }

    fn day_passes(&mut self) {
        if self.random.one_in(8) {
            self.pass();
        } else {
            let unit = self.random.pick(&[1.0, 1.0, 60.0, 3600.0, 86_400.0]);
            // The tick goes by game time itself, and the day by its base.
            let device = &self.list.device;
            let base = if self.random.one_in(3) {
                0.0
            } else {
                device.rtc_irq.tod_base as f64 - device.rtc_irq.tod_set_at
            };
            let gone = ((base + device.game_time) / unit).floor();
            self.go_game((gone + 1.0) * unit - base);
        }
        self.fields();
        self.list.read(RTC_IRQ_STATUS);
        if self.random.one_in(2) {
            self.list.look(0x9);
        }
    }

    fn adc_control(&mut self, bits: u32) {
        let known = adc_bits(0x1F);
        let others = if self.random.one_in(3) { self.random.next() as u32 & !known } else { 0 };
        self.list.write(ADC_CONTROL, bits | others);
        self.list.read(ADC_CONTROL);
    }
}
