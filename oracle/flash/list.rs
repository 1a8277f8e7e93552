//! A step list being written, and counts of what stands in it.

use std::io::{self, Write};

/// The commands that document 000 names.
pub const COMMANDS: [u8; 17] = [
    0x9F, 0x90, 0xAB, 0x05, 0x35, 0x15, 0x03, 0x0B, 0x4B, 0x06, 0x04, 0x02, 0x20, 0x52, 0xD8, 0xC7,
    0x60,
];

/// Classes of length: the last length of each, and its name.
const LENGTHS: [(usize, &str); 7] = [
    (0, "0"),
    (6, "1 to 6"),
    (254, "7 to 254"),
    (266, "255 to 266"),
    (65_529, "267 to 65529"),
    (65_545, "65530 to 65545"),
    (usize::MAX, "65546 and more"),
];

#[derive(Default)]
pub struct List {
    text: Vec<u8>,
    selected: bool,
    /// Bytes sent since the select.
    length: usize,
    first: Vec<u8>,
    lengths: [u64; LENGTHS.len()],
    bytes: u64,
    unselected: u64,
    double_selects: u64,
    idle_deselects: u64,
    transactions: usize,
}

impl List {
    pub fn selected(&self) -> bool {
        self.selected
    }

    pub fn transactions(&self) -> usize {
        self.transactions
    }

    pub fn lines(&self) -> usize {
        self.text.iter().filter(|&&b| b == b'\n').count()
    }

    pub fn select(&mut self) {
        self.text.extend(b"+\n");
        if self.selected {
            self.double_selects += 1;
        } else {
            self.selected = true;
            self.length = 0;
            self.transactions += 1;
        }
    }

    pub fn deselect(&mut self) {
        self.text.extend(b"-\n");
        if self.selected {
            self.selected = false;
            let class = LENGTHS.iter().position(|&(last, _)| self.length <= last);
            self.lengths[class.unwrap()] += 1;
        } else {
            self.idle_deselects += 1;
        }
    }

    pub fn send(&mut self, byte: u8) {
        const DIGITS: &[u8; 16] = b"0123456789abcdef";
        let digits = [DIGITS[usize::from(byte >> 4)], DIGITS[usize::from(byte & 15)]];
        self.text.extend(digits);
        self.text.push(b'\n');
        self.bytes += 1;
        if !self.selected {
            self.unselected += 1;
        } else {
            if self.length == 0 {
                self.first.push(byte);
            }
            self.length += 1;
        }
    }

    /// One undisturbed transaction.
    pub fn transaction(&mut self, bytes: &[u8]) {
        self.select();
        for &byte in bytes {
            self.send(byte);
        }
        self.deselect();
    }

    /// Reads `count` bytes from `start`, in a transaction of its own.
    pub fn read_back(&mut self, start: usize, count: usize) {
        if self.selected {
            self.deselect();
        }
        let mut bytes = with_address(0x03, start);
        bytes.resize(4 + count, 0);
        self.transaction(&bytes);
    }

    pub fn into_text(self) -> Vec<u8> {
        self.text
    }

    /// One count a line, the number last.
    pub fn report(&self, out: &mut impl Write) -> io::Result<()> {
        let times = |byte: u8| self.first.iter().filter(|&&b| b == byte).count();
        writeln!(out, "transactions {}", self.transactions)?;
        writeln!(out, "bytes sent {}", self.bytes)?;
        for command in COMMANDS {
            writeln!(out, "first byte {command:02x}: {}", times(command))?;
        }
        let others = self.first.iter().filter(|b| !COMMANDS.contains(b)).count();
        writeln!(out, "first byte of no command: {others}")?;
        let different = (0..=255).filter(|&byte| times(byte) > 0).count();
        writeln!(out, "different first bytes: {different}")?;
        for ((_, name), count) in LENGTHS.iter().zip(self.lengths) {
            writeln!(out, "length {name}: {count}")?;
        }
        writeln!(out, "transfers while not selected: {}", self.unselected)?;
        writeln!(out, "selects while selected: {}", self.double_selects)?;
        writeln!(out, "deselects while not selected: {}", self.idle_deselects)
    }
}

/// A command and its three address bytes.
pub fn with_address(command: u8, address: usize) -> Vec<u8> {
    vec![command, (address >> 16) as u8, (address >> 8) as u8, address as u8]
}
