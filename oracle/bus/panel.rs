//! The family for the panel behind its registers, with DMA from everywhere.

use super::families::Author;
use super::list::List;
use super::memory::STRAY;
use crate::common::numbers::*;

/// Where pictures lie: in each memory, over its end, in registers, astray.
#[rustfmt::skip]
pub const PICTURES: [u32; 19] = [
    FLASH_BASE, FLASH_BASE + 1, FLASH_BASE + 0x8000, SRAM_BASE, SRAM_BASE + 0x7FFD,
    SRAM_BASE + 0x8000, GPIO_BASE, REGISTERS_C - 0xF, REGISTERS_C, TIMER_BASE - 0x20,
    RTC_IRQ_BASE - 0x800, REGISTERS_C_END - 0x100, LCD_BASE - 0x10, REGISTERS_F_END - 0xFE,
    0xFFFF_FFFE, FLASH_BASE - 0xD, GPIO_BASE - 0x1000, SRAM_BASE - 0x7FFF, REGISTERS_F - 4,
];

pub fn panel(author: &mut Author) {
    match author.random.below(12) {
        0..=2 => author.paint(),
        3 => author.window(),
        4 => author.any_command(),
        5..=7 => author.dma(),
        8 => author.odd_control(),
        9 => author.panel_words(),
        10 if !author.random.one_in(3) => author.something_between(),
        10 => author.stored_picture(),
        _ => author.arguments(),
    }
    author.list.counters();
    author.pixel();
}

/// A command and its data, two bytes at a time.
pub fn command(list: &mut List, command: u8, data: &[u8]) {
    list.write(LCD_DATA, command.into());
    list.write(LCD_CONTROL, SEND_COMMAND);
    for bytes in data.chunks(2) {
        let word = bytes.iter().fold(0, |word, &byte| word << 8 | u32::from(byte));
        list.write(LCD_DATA, word);
        list.write(LCD_CONTROL, if bytes.len() == 2 { SEND_TWO } else { SEND_BYTE });
    }
}

pub fn dma(list: &mut List, picture: u32) {
    list.write(LCD_DMA, picture);
    list.write(LCD_CONTROL, START_DMA);
}

impl Author {
    /// Any pixel, or the next one that is not black.
    pub fn pixel(&mut self) {
        let at = self.bits();
        let mut pixels = self.list.system().lcd.fb.chunks_exact(2).enumerate();
        let seen = pixels.find(|(n, pixel)| *n >= at as usize % 200 && *pixel != [0, 0]);
        let seen = seen.map_or(at, |(n, _)| n as u32);
        let at = self.random.pick(&[at, seen]);
        self.list.pixel(at);
    }

    /// Bits of the control that do not count, and the write's size, vary.
    fn control(&mut self, how: u32) {
        let others = if self.random.one_in(3) { self.bits() & !0x20F1 } else { 0 };
        let size = self.random.pick(&[4, 4, 2]);
        self.list.write_sized(size, LCD_CONTROL, how | others);
        if self.random.one_in(6) {
            self.get(LCD_CONTROL);
        }
    }

    pub fn send_command(&mut self, command: u8) {
        let above = if self.random.one_in(3) { self.bits() << 8 } else { 0 };
        self.put_once(LCD_DATA, above | u32::from(command));
        self.control(SEND_COMMAND);
    }

    /// One data byte at a time, or two, the high one first.
    pub fn send(&mut self, bytes: &[u8]) {
        let mut rest = bytes;
        while let [first, others @ ..] = rest {
            match others {
                [second, after @ ..] if !self.random.one_in(3) => {
                    let two = u32::from(*first) << 8 | u32::from(*second);
                    let above = self.bits() << 16;
                    self.list.write(LCD_DATA, above | two);
                    self.control(SEND_TWO);
                    rest = after;
                }
                _ => {
                    self.put_once(LCD_DATA, u32::from(*first));
                    self.control(SEND_BYTE);
                    rest = others;
                }
            }
        }
    }

    fn ends(&mut self) -> [u8; 4] {
        let first: u16 = self.random.pick(&[0, 1, 5, 126, 127, 128, 255, 0x100, 0xFFFF]);
        let last = match self.random.below(4) {
            0 => self.random.pick(&[0, 127, 128, 0xFFFF]),
            _ => first.saturating_add(self.random.below(3) as u16),
        };
        let ([a, b], [c, d]) = (first.to_be_bytes(), last.to_be_bytes());
        [a, b, c, d]
    }

    pub fn window(&mut self) {
        for command in [COLUMNS, ROWS] {
            if !self.random.one_in(4) {
                self.send_command(command);
                let ends = self.ends();
                self.send(&ends);
            }
        }
    }

    fn paint(&mut self) {
        if self.random.one_in(3) {
            self.window();
        }
        self.send_command(PAINT);
        let count = self.random.between(1, 12);
        let bytes = self.data(count);
        self.send(&bytes);
        self.list.digest(3);
    }

    /// Fewer arguments than four, or more.
    fn arguments(&mut self) {
        let command = self.random.pick(&[COLUMNS, ROWS]);
        self.send_command(command);
        let mut bytes = self.ends().to_vec();
        bytes.extend(self.ends());
        bytes.truncate(self.random.between(0, 8));
        self.send(&bytes);
        self.paint();
    }

    fn any_command(&mut self) {
        let command = self.random.byte();
        self.send_command(command);
        let count = self.random.below(6);
        let bytes = self.data(count);
        self.send(&bytes);
    }

    fn dma(&mut self) {
        let picture = match self.random.below(4) {
            0 if self.random.one_in(2) => 0,
            0 => self.random.pick(&STRAY),
            1 => FLASH_BASE + self.bits() % 0x8001,
            _ => self.random.pick(&PICTURES),
        };
        self.put(LCD_DMA, picture);
        self.control(START_DMA);
        self.list.digest(3);
        self.get(LCD_STATUS);
    }

    /// A DMA between the bytes of a command leaves them as they are, and so
    /// does a control that does nothing.
    fn something_between(&mut self) {
        let command = self.random.pick(&[COLUMNS, ROWS, PAINT, PAINT]);
        self.send_command(command);
        let bytes = if command == PAINT { self.data(5) } else { self.ends().to_vec() };
        let (before, after) = bytes.split_at(self.random.between(1, 3));
        self.send(before);
        let nothing = self.random.pick(&[0x91, 0xB1, 0xC1, 0xE1, 0x01, 0x80, 0xA0]);
        match self.random.below(3) {
            0 => self.dma(),
            1 => self.odd_control(),
            _ => self.control(nothing),
        }
        self.send(after);
        self.list.digest(3);
        self.paint();
    }

    /// Something to see in memories and registers that a DMA copies.
    fn stored_picture(&mut self) {
        for _ in 0..self.random.between(2, 6) {
            let (address, value) = (self.address(), self.bits());
            self.list.write(address, value);
            let (word, value) = (self.random.pick(&PICTURES), self.bits());
            self.list.write(word & !3, value);
        }
        self.dma();
    }

    /// Bit 0 clear, unknown codes, and short writes that leave the code.
    fn odd_control(&mut self) {
        let code = self.random.below(16) as u32 * 16;
        let run = self.random.pick(&[0, 1, 1]);
        let known = self.random.pick(&[0x80, 0xA0, 0x20A0, 0xD0]);
        let beside = self.random.pick(&[0x90, 0xB0, 0xC0, 0xE0]);
        let code = self.random.pick(&[code, known, beside]);
        self.put_once(LCD_CONTROL, code | run);
        self.get(LCD_CONTROL);
        let (at, value) = (self.random.between(1, 3) as u32, self.bits());
        self.list.write_sized(1, LCD_CONTROL + at, value);
        self.get(LCD_CONTROL);
        self.list.digest(3);
    }

    fn panel_words(&mut self) {
        let word = self.random.pick(&[LCD_DATA, LCD_DMA, LCD_ENABLE, LCD_STATUS]);
        let value = self.bits();
        self.put_part(word, value);
        self.get(word);
        self.list.peek32(LCD_CONTROL);
    }
}
