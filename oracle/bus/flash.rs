//! The family for the flash behind its registers.

use super::families::Author;
use super::list::List;
use crate::common::numbers::*;
use crate::FLASH_SIZE;

/// Every command that does or answers something.
#[rustfmt::skip]
const COMMANDS: [u8; 17] = [
    0x02, 0x03, 0x04, 0x05, 0x06, 0x0B, 0x15, 0x20, 0x35, 0x4B, 0x52, 0x60, 0x90, 0x9F, 0xAB, 0xC7,
    0xD8,
];

pub fn flash(author: &mut Author) {
    match author.random.below(12) {
        0..=2 => author.program(),
        3 if author.random.one_in(6) => author.long_program(),
        3 => author.erase(),
        4 | 5 => author.flash_read(),
        6 => author.identities(),
        7 => author.any_transaction(),
        8 => author.array_write(),
        9 => author.loose_selects(),
        10 => author.flash_words(),
        _ => {
            author.frame(&[0x05, 0]);
            author.list.counters();
        }
    }
}

/// The whole of a transaction, with each answer.
pub fn frame(list: &mut List, bytes: &[u8]) {
    list.write(SPIFC_SELECT, FLASH_SELECTED);
    for &byte in bytes {
        list.write(SPIFC_SEND, byte.into());
        list.read(SPIFC_ANSWER);
    }
    list.write(SPIFC_SELECT, 0);
}

pub fn with_address(command: u8, address: u32, data: &[u8]) -> Vec<u8> {
    let [_, high, middle, low] = address.to_be_bytes();
    [&[command, high, middle, low], data].concat()
}

impl Author {
    /// Only bit 6 counts, whichever write has brought it there.
    fn select(&mut self, on: bool) {
        let others = if self.random.one_in(3) { self.bits() & !FLASH_SELECTED } else { 0 };
        self.put_once(SPIFC_SELECT, others | if on { FLASH_SELECTED } else { 0 });
    }

    /// Any write to the word transfers its low byte, as it then is. So a write
    /// above it sends the last byte again, and one that is shifted sends 0.
    fn transfer(&mut self, byte: u8) {
        let (at, value) = (self.random.between(1, 3) as u32, self.bits());
        if byte == self.list.system().reg(SPIFC_SEND) as u8 && self.random.one_in(2) {
            self.list.write_sized(1, SPIFC_SEND + at, value);
            return;
        }
        if byte == 0 && self.random.one_in(8) {
            self.list.write(SPIFC_SEND + at, value);
            return;
        }
        let above = if self.random.one_in(4) { self.bits() << 8 } else { 0 };
        self.put_once(SPIFC_SEND, above | u32::from(byte));
    }

    pub fn frame(&mut self, bytes: &[u8]) {
        self.select(true);
        for &byte in bytes {
            self.transfer(byte);
            if self.random.one_in(3) || byte == 0 {
                self.get(SPIFC_ANSWER);
            }
        }
        self.list.read(SPIFC_ANSWER);
        self.select(false);
    }

    /// Many at the edges of pages, sectors, blocks and the array; beyond it
    /// they go round.
    pub fn flash_address(&mut self) -> u32 {
        let any = self.bits() & 0xFF_FFFF;
        let edge = any & self.random.pick(&[0xFF_FF00, 0xFF_F000, 0xFF_8000]);
        match self.random.below(3) {
            0 => any,
            1 => edge.wrapping_sub(self.random.below(4) as u32) & 0xFF_FFFF,
            _ => edge + self.random.below(4) as u32,
        }
    }

    /// Any bytes, some of them twice in a row.
    pub fn data(&mut self, count: usize) -> Vec<u8> {
        let mut bytes: Vec<u8> = (0..count).map(|_| self.random.byte()).collect();
        for at in 1..count {
            if self.random.one_in(4) {
                bytes[at] = bytes[at - 1];
            }
        }
        bytes
    }

    fn enable(&mut self) {
        if !self.random.one_in(5) {
            self.frame(&[0x06]);
        }
    }

    fn program(&mut self) {
        let address = self.flash_address();
        self.prepare(address);
        let count = self.random.pick(&[0, 1, 2, 3, 5, 9]);
        let data = self.data(count);
        self.enable();
        self.frame(&with_address(0x02, address, &data));
        self.see(address);
    }

    /// More data bytes than a page holds: they go round and are all ANDed in.
    fn long_program(&mut self) {
        let (address, more) = (self.flash_address(), self.random.between(0, 6));
        let page = FLASH_BASE + (address % FLASH_SIZE as u32 & !0xFF);
        for at in 0..4 {
            self.list.write(page + 64 * at, u32::MAX);
        }
        let data: Vec<u8> = self.data(254 + more).iter().map(|byte| byte | 0x81).collect();
        frame(&mut self.list, &[0x06]);
        self.select(true);
        for byte in with_address(0x02, address, &data) {
            self.transfer(byte);
        }
        self.select(false);
        self.see(address);
    }

    /// The place is erased by an ordinary write, so that a program shows.
    fn prepare(&mut self, address: u32) {
        for at in 0..self.random.below(3) as u32 {
            let here = (address + 4 * at) % FLASH_SIZE as u32;
            self.list.write(FLASH_BASE + here, u32::MAX);
        }
    }

    /// A few bytes of the page, through the memory.
    fn see(&mut self, address: u32) {
        let here = address % FLASH_SIZE as u32;
        self.list.read(FLASH_BASE + here);
        self.list.block(FLASH_BASE + (here & !0xFF), 256);
    }

    fn erase(&mut self) {
        let command = self.random.pick(&[0x20, 0x20, 0x20, 0x52, 0x52, 0xD8, 0xC7, 0x60]);
        let address = self.flash_address();
        let mut bytes = with_address(command, address, &[0, 0]);
        bytes.truncate(self.random.pick(&[1, 3, 4, 4, 4, 5, 6]));
        self.enable();
        self.frame(&bytes);
        self.list.digest(0);
        self.list.counters();
    }

    fn flash_read(&mut self) {
        let (command, address) = (self.random.pick(&[0x03, 0x0B]), self.flash_address());
        self.frame(&with_address(command, address, &[0; 6]));
    }

    fn identities(&mut self) {
        let command = self.random.pick(&[0x9F, 0x90, 0xAB, 0x4B, 0x05, 0x35, 0x15]);
        let count = self.random.between(1, 9);
        let mut bytes = vec![0; count];
        bytes[0] = command;
        self.frame(&bytes);
    }

    /// Any first byte, and any length.
    fn any_transaction(&mut self) {
        let (any, known) = (self.random.byte(), self.random.pick(&COMMANDS));
        let count = self.random.between(0, 8);
        let mut bytes = self.data(count);
        if let Some(first) = bytes.first_mut() {
            *first = self.random.pick(&[any, known]);
        }
        self.enable();
        self.frame(&bytes);
    }

    /// Ordinary writes reach the array.
    fn array_write(&mut self) {
        let address = FLASH_BASE + self.flash_address() % FLASH_SIZE as u32;
        let (size, value) = (self.size(), self.bits());
        self.list.write_sized(size, address, value);
        let bytes = with_address(0x03, address % FLASH_SIZE as u32, &[0; 4]);
        self.frame(&bytes);
    }

    /// Second selects, missing ones, and transfers while not selected.
    fn loose_selects(&mut self) {
        // What goes on after a transaction that was too short.
        if self.random.one_in(2) {
            let command = self.random.pick(&[0x02, 0x20, 0x52]);
            let length = self.random.pick(&[3, 4]);
            self.frame(&[0x06]);
            self.frame(&with_address(command, 0x1234, &[])[..length]);
            self.transfer(0x00);
            self.select(false);
            self.list.counters();
        }
        for _ in 0..self.random.between(2, 6) {
            match self.random.below(4) {
                0 => self.select(true),
                1 => self.select(false),
                _ => {
                    let byte = self.random.pick(&[0x06, 0x05, 0x9F, 0x03, 0x00]);
                    self.transfer(byte);
                    self.list.read(SPIFC_ANSWER);
                }
            }
        }
        self.list.counters();
    }

    /// What is stored in the four words, and the bytes beside those that count.
    fn flash_words(&mut self) {
        for word in [SPIFC_SELECT, SPIFC_STATUS, SPIFC_SEND, SPIFC_ANSWER] {
            let value = self.bits();
            self.put_part(word, value);
            self.list.read(word);
            self.get_part(word);
            self.list.peek32(word);
        }
    }
}
