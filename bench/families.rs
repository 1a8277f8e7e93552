//! What is timed: a script for each thing that a unit's program does, as many
//! steps of it as a script holds. No step is refused.

use crate::bus::map::{takes_room, OTHER_WORD, TONE_WORDS};
use crate::bytes::{Press, ScriptStep};
use crate::common::device::timer_word;
use crate::common::numbers::*;
use crate::common::random::Random;

pub struct Family {
    pub name: &'static str,
    make: fn(&mut Author),
    most: usize,
}

/// A script being written.
pub struct Author {
    pub presses: Vec<Press>,
    pub steps: Vec<ScriptStep>,
    random: Random,
    now: f64,
    /// Register words without storage of their own, for the families that choose theirs once.
    words: Vec<u32>,
}

const fn family(name: &'static str, make: fn(&mut Author)) -> Family {
    Family { name, make, most: MOST_STEPS }
}

/// One whose steps take long.
const fn short(name: &'static str, make: fn(&mut Author), most: usize) -> Family {
    Family { name, make, most }
}

pub const FAMILIES: [Family; 32] = [
    family("mixed", Author::mixed),
    family("memory, words", |author| author.memory(&[4])),
    family("memory, bytes and halves", |author| author.memory(&[1, 2])),
    family("memory, GPIO", Author::gpio),
    family("registers, own", Author::own),
    family("registers, four others", |author| author.others(4)),
    family("registers, 256 others", |author| author.others(REGISTER_PLACES)),
    family("registers, zeros read", Author::zeros),
    family("registers, 64 scattered", |author| author.scattered(64)),
    family("registers, 256 scattered", |author| author.scattered(REGISTER_PLACES)),
    family("registers, scattered zeros", Author::scattered_zeros),
    family("registers, words come and go", Author::come_and_go),
    family("registers, timers", Author::timer_words),
    family("registers, time of day", Author::time_of_day),
    family("registers, RTC chip", Author::rtc),
    family("registers, interrupts", Author::interrupts),
    family("registers, second SPI", Author::spi),
    family("flash, read", |author| author.flash_read(256)),
    family("flash, program", Author::flash_program),
    family("flash, erase 4 KiB", |author| author.erase(0x20)),
    family("flash, erase 64 KiB", |author| author.erase(0xD8)),
    short("flash, erase chip", Author::erase_chip, 64),
    family("panel, pixels", Author::pixels),
    family("panel, windows", Author::windows),
    short("DMA", Author::dma, 512),
    family("timers, sound", Author::sound),
    family("timers, six running", Author::six_timers),
    family("advance, nothing set", Author::advance),
    family("advance, 64 presses", Author::pressed),
    family("next event, pending", Author::next),
    family("keys, colours, counters", Author::rest),
    short("wipe", Author::wipes, 32),
];

impl Family {
    pub fn script(&self) -> Author {
        let (presses, steps, words) = (Vec::new(), Vec::new(), Vec::new());
        let mut author = Author { presses, steps, random: Random::new(1), now: 0.0, words };
        while author.steps.len() < self.most {
            (self.make)(&mut author);
        }
        author.steps.truncate(self.most);
        author
    }
}

/// The words of its own storage that a read shows as written.
#[rustfmt::skip]
const PLAIN: [u32; 7] = [
    RTC_ADDRESS, RTC_DATA, CLOCK_SWITCH, INTC_MASK, INTC_DISABLE, LCD_DATA, LCD_ENABLE,
];

/// The ranges of register words: where each begins, and how many words it has.
const REGISTERS: [(u32, usize); 3] =
    [(REGISTERS_C, 0x3F_FC00), (REGISTERS_D, 0x40_0000), (REGISTERS_F, 0x3F_FC00)];

/// Words that come and go: so many are there, and as many are away.
const SOME: usize = 64;

impl Author {
    fn step(&mut self, kind: u8, size: u8, address: u32, value: u64) {
        self.steps.push(ScriptStep { kind, size, unused: [0; 2], address, value });
    }

    fn read(&mut self, address: u32) {
        self.step(READ, 4, address, 0);
    }

    fn write(&mut self, address: u32, value: u32) {
        self.step(WRITE, 4, address, value.into());
    }

    fn go(&mut self, seconds: f64) {
        self.now += seconds;
        self.step(ADVANCE, 0, 0, self.now.to_bits());
    }

    fn below(&mut self, limit: usize) -> u32 {
        self.random.below(limit) as u32
    }

    fn memory(&mut self, sizes: &[u8]) {
        let size = self.random.pick(sizes);
        let memories = [(FLASH_BASE, RAM_BYTES), (SRAM_BASE, SRAM_BYTES)];
        let (base, length) = self.random.pick(&memories);
        let address = base + self.below(length / 4) * 4;
        let value = self.random.next() & 0xFFFF_FFFF;
        self.step(WRITE, size, address, value);
        self.step(READ, size, address, 0);
    }

    fn gpio(&mut self) {
        let address = GPIO_BASE + 4 * self.below(GPIO_BYTES / 4);
        self.write(address, address);
        self.read(address);
    }

    fn own(&mut self) {
        let (word, value) = (self.random.pick(&PLAIN), self.random.next() as u32);
        self.write(word, value);
        self.read(word);
    }

    /// Anything but zero, so that the word has a place from then on.
    fn fill(&mut self, word: u32) {
        let value = self.random.next() as u32 | 1;
        self.write(word, value);
        self.read(word);
    }

    fn others(&mut self, count: usize) {
        let word = OTHER_WORD + 4 * self.below(count);
        self.fill(word);
    }

    fn zeros(&mut self) {
        if self.steps.is_empty() {
            for n in 0..256 {
                self.write(OTHER_WORD + 4 * n, 1);
            }
        }
        let word = 0xC020_0000 + 4 * self.below(4096);
        self.read(word);
    }

    /// A word anywhere in the registers that takes one of the 256 places while it is not zero,
    /// and is none of `words`.
    fn scattered_word(&mut self) -> u32 {
        loop {
            let (first, words) = self.random.pick(&REGISTERS);
            let word = first + 4 * self.below(words);
            if takes_room(word) && !self.words.contains(&word) {
                return word;
            }
        }
    }

    fn choose(&mut self, count: usize) {
        while self.words.len() < count {
            let word = self.scattered_word();
            self.words.push(word);
        }
    }

    /// So many places are taken, by the first of `words`.
    fn fill_table(&mut self, count: usize) {
        self.choose(count);
        for at in 0..count {
            self.write(self.words[at], 1);
        }
    }

    fn scattered(&mut self, count: usize) {
        self.choose(count);
        let word = self.random.pick(&self.words);
        self.fill(word);
    }

    fn scattered_zeros(&mut self) {
        if self.steps.is_empty() {
            self.fill_table(REGISTER_PLACES);
        }
        let word = self.scattered_word();
        self.read(word);
    }

    /// A word gives its place back and one that is away takes it, again and again.
    fn come_and_go(&mut self) {
        if self.steps.is_empty() {
            self.fill_table(SOME);
            self.choose(2 * SOME);
        }
        let (here, away) = (self.random.below(SOME), SOME + self.random.below(SOME));
        self.write(self.words[here], 0);
        self.read(self.words[here]);
        self.words.swap(here, away);
        self.fill(self.words[here]);
    }

    fn timer_words(&mut self) {
        let timer = self.random.pick(&[0, 1, 2, 3, 5]);
        let control = timer_word(timer, CONTROL_AT);
        let reload = self.below(65_536);
        self.write(timer_word(timer, RELOAD_AT), reload);
        self.write(control, 0x6000);
        self.go(0.000_1);
        self.read(control);
        self.read(timer_word(timer, COUNTER_AT));
        self.write(control, 0x8000);
    }

    fn time_of_day(&mut self) {
        let word = RTC_SECONDS + 4 * self.below(3);
        let value = self.below(60);
        self.write(word, value);
        self.read(word);
        self.go(0.3);
        self.write(RTC_IRQ_STATUS, 2);
    }

    fn rtc(&mut self) {
        let (register, data) = (self.below(0x36), self.below(256));
        self.write(RTC_ADDRESS, register);
        self.write(RTC_DATA, data);
        self.write(RTC_COMMAND, 1);
        self.write(RTC_COMMAND, 2);
        self.read(RTC_OUT);
    }

    fn interrupts(&mut self) {
        let mask = self.random.next() as u32;
        self.write(INTC_MASK, mask);
        self.read(INTC_PENDING);
        self.write(ADC_CONTROL, 0x4040);
        self.go(0.001);
        self.read(ADC_RESULT);
        self.write(LCD_STATUS, 0x2000);
    }

    fn spi(&mut self) {
        let byte = self.below(256);
        self.write(SPI2_SEND, byte);
        self.read(SPI2_STATUS);
        self.read(SPI2_ANSWER);
    }

    /// One transaction, without its answers.
    fn send(&mut self, bytes: &[u8]) {
        self.write(SPIFC_SELECT, FLASH_SELECTED);
        for &byte in bytes {
            self.write(SPIFC_SEND, byte.into());
        }
        self.write(SPIFC_SELECT, 0);
    }

    fn with_address(&mut self, command: u8) -> [u8; 4] {
        let address = self.below(0x80_0000).to_be_bytes();
        [command, address[1], address[2], address[3]]
    }

    fn flash_read(&mut self, count: usize) {
        let mut bytes = self.with_address(0x03).to_vec();
        bytes.resize(bytes.len() + count, 0);
        self.write(SPIFC_SELECT, FLASH_SELECTED);
        for byte in bytes {
            self.write(SPIFC_SEND, byte.into());
            self.read(SPIFC_ANSWER);
        }
        self.write(SPIFC_SELECT, 0);
    }

    fn flash_program(&mut self) {
        self.send(&[0x06]);
        let mut bytes = self.with_address(0x02).to_vec();
        bytes.extend((0..256).map(|n| n as u8));
        self.send(&bytes);
    }

    fn erase(&mut self, command: u8) {
        self.send(&[0x06]);
        let bytes = self.with_address(command);
        self.send(&bytes);
    }

    fn erase_chip(&mut self) {
        self.send(&[0x06]);
        self.send(&[0xC7]);
    }

    fn command(&mut self, command: u8, words: &[u32]) {
        self.write(LCD_DATA, command.into());
        self.write(LCD_CONTROL, SEND_COMMAND);
        for &word in words {
            self.write(LCD_DATA, word);
            self.write(LCD_CONTROL, SEND_TWO);
        }
    }

    fn pixels(&mut self) {
        if self.steps.is_empty() {
            self.command(0x2C, &[]);
        }
        self.pixel();
    }

    fn pixel(&mut self) {
        let pixel = self.below(65_536);
        self.write(LCD_DATA, pixel);
        self.write(LCD_CONTROL, SEND_TWO);
    }

    fn windows(&mut self) {
        let (x, y) = (self.below(96), self.below(96));
        self.command(0x2A, &[x, x + 3]);
        self.command(0x2B, &[y, y + 3]);
        self.command(0x2C, &[0x8410; 16]);
    }

    fn dma(&mut self) {
        let address = FLASH_BASE + 4 * self.below(0x3F_0000);
        self.write(LCD_DMA, address);
        self.write(LCD_CONTROL, START_DMA);
    }

    fn sound(&mut self) {
        let reload = self.below(65_536);
        let [control, reload_word, compare] = TONE_WORDS;
        self.write(reload_word, reload);
        self.write(compare, (reload + 65_536) / 2);
        self.write(control, 0x2000);
        self.write(control, 0);
        self.step(SOUND, 0, 0, 0);
        self.step(SOUND, 0, 0, 0);
    }

    fn six_timers(&mut self) {
        if self.steps.is_empty() {
            for n in 0..TIMER_COUNT {
                self.write(timer_word(n, RELOAD_AT), 0xFC18 + 7 * n as u32);
                self.write(timer_word(n, CONTROL_AT), 0x6000);
            }
        }
        self.go(0.000_1);
        self.step(NEXT, 0, 0, 0);
    }

    fn advance(&mut self) {
        self.go(0.001);
    }

    fn pressed(&mut self) {
        if self.steps.is_empty() {
            let press = |n: u32| ((n % 3) as u8, (f64::from(n) / 16.0).to_bits());
            self.presses = (0..64).map(press).collect();
        }
        self.go(0.001);
    }

    fn next(&mut self) {
        self.step(NEXT, 0, 0, 0);
        self.step(PENDING, 0, 0, 0);
    }

    fn rest(&mut self) {
        let key = self.below(3);
        self.step(KEY, 0, key, 1);
        self.step(HOLD, 0, key, 1.5f64.to_bits());
        let pixel = self.below(16_384);
        self.step(COLOUR, 0, pixel, 0);
        self.step(COUNTERS, 0, 0, 0);
        self.step(TURBO, 0, 0, 2.0f64.to_bits());
    }

    /// What a program does, in turns of some steps. Of 100 steps 72 read or write memory, 7 are
    /// own words, 6 flash bytes, 6 advances with what is asked after them, 4 timers' words,
    /// 4 pixels and 1 a key.
    fn mixed(&mut self) {
        if self.steps.is_empty() {
            self.command(0x2C, &[]);
        }
        match self.below(100) {
            0..=77 => self.memory(&[1, 2, 4]),
            78..=85 => self.own(),
            86..=87 => self.timer_words(),
            88 => self.flash_read(4),
            89..=93 => self.pixel(),
            94..=97 => self.moment(),
            _ => self.key(),
        }
    }

    fn moment(&mut self) {
        self.go(0.001);
        self.next();
    }

    fn key(&mut self) {
        let (key, down) = (self.below(3), self.below(2));
        self.step(KEY, 0, key, down.into());
    }

    fn wipes(&mut self) {
        self.step(WIPE, 0, 0, 0);
    }
}
