//! Random transactions and the lists made of them.

use crate::common::numbers::SMALL_BYTES;
use crate::common::random::Random;
use crate::list::{with_address, List, COMMANDS};

/// The commands that erase all of so small an array.
const ERASES_ALL: [u8; 3] = [0xD8, 0xC7, 0x60];

/// One transaction in so many is longer than the array or nearly so.
const LONG_EVERY: usize = 125;

/// How many lengths are tried about the array's length, and about twice it.
const LONG_LENGTHS: usize = 16;

/// How often a command is drawn. Programs lead, and what erases the whole
/// array is rare, so that the array does not stay empty.
const WEIGHTS: [(u8, usize); 17] = [
    (0x02, 24),
    (0x03, 9),
    (0x0B, 6),
    (0x05, 5),
    (0x20, 5),
    (0x06, 4),
    (0x90, 4),
    (0x9F, 4),
    (0xAB, 3),
    (0x4B, 3),
    (0x04, 3),
    (0x52, 2),
    (0x35, 2),
    (0x15, 2),
    (0xD8, 1),
    (0xC7, 1),
    (0x60, 1),
];

/// The same for all first bytes that are no command.
const OTHER_WEIGHT: usize = 56;

pub struct Author {
    pub random: Random,
    pub list: List,
    other: u8,
}

/// A list of at least `transactions` transactions that ends in reading back
/// the whole array, so that equal answers mean equal arrays.
pub fn random_list(seed: u64, transactions: usize) -> List {
    let mut author = Author::new(seed);
    author.unselected_transfers();
    let mut long = (seed as usize).wrapping_mul(transactions.div_ceil(LONG_EVERY));
    let mut next_long = LONG_EVERY / 2;
    while author.list.transactions() < transactions {
        if author.list.transactions() >= next_long {
            author.long_transaction(long);
            long += 1;
            next_long += LONG_EVERY;
        }
        author.transaction();
    }
    author.list.read_back(0, SMALL_BYTES);
    author.loose_end();
    author.list
}

impl Author {
    pub fn new(seed: u64) -> Author {
        let mut random = Random::new(seed);
        let other = random.byte();
        Author { random, list: List::default(), other }
    }

    pub fn transaction(&mut self) {
        let command = self.command();
        let address = self.address();
        let length = self.length();
        self.prepare(command);
        self.send(command, address, length);
    }

    /// Every pair of a command and a long length comes up as `number` grows.
    fn long_transaction(&mut self, number: usize) {
        let kinds = COMMANDS.len() + 1;
        let command = match COMMANDS.get(number % kinds) {
            Some(&command) => command,
            None => self.other(),
        };
        let number = number / kinds;
        let rounds = 1 + number / LONG_LENGTHS % 2;
        let length = rounds * SMALL_BYTES - 6 + number % LONG_LENGTHS;
        let address = self.address();
        if ERASES_ALL.contains(&command) {
            self.list.read_back(0, SMALL_BYTES);
        }
        if !self.random.one_in(4) {
            self.frame(&[0x06]);
        }
        self.send(command, address, length);
        self.frame(&[0x05, 0x00]);
    }

    /// The transaction, and sometimes the status after it.
    pub fn send(&mut self, command: u8, address: usize, length: usize) {
        let bytes = self.bytes(command, address, length);
        self.frame(&bytes);
        if self.random.one_in(8) {
            self.frame(&[0x05, 0x00]);
        }
    }

    pub fn command(&mut self) -> u8 {
        let commands: usize = WEIGHTS.iter().map(|&(_, weight)| weight).sum();
        let mut draw = self.random.below(commands + OTHER_WEIGHT);
        for (command, weight) in WEIGHTS {
            if draw < weight {
                return command;
            }
            draw -= weight;
        }
        self.other()
    }

    /// Goes round the first bytes that are no command, so that all come up.
    fn other(&mut self) -> u8 {
        loop {
            self.other = self.other.wrapping_add(1);
            if !COMMANDS.contains(&self.other) {
                return self.other;
            }
        }
    }

    /// Write enable, as often as suits the command; what erases the whole
    /// array mostly has it taken away.
    pub fn prepare(&mut self, command: u8) {
        let sixteenths = match command {
            0x02 => 12,
            0x20 | 0x04 => 8,
            0x52 => 4,
            _ => 1,
        };
        if self.random.below(16) < sixteenths {
            self.frame(&[0x06]);
        } else if ERASES_ALL.contains(&command) {
            self.frame(&[0x04]);
        }
    }

    fn address(&mut self) -> usize {
        let any = self.random.below(1 << 24);
        let size = self.random.pick(&[0x100, 0x1000, 0x8000, SMALL_BYTES]);
        let edge = any - any % size + size;
        let address = match self.random.below(8) {
            0..=2 => any,
            3 | 4 => edge - 4 + self.random.below(8),
            5 => any - any % SMALL_BYTES + SMALL_BYTES - self.random.between(1, 300),
            // Four pages only, so that programs meet programs.
            _ => any - any % SMALL_BYTES + any % 0x400,
        };
        address % (1 << 24)
    }

    /// The number of bytes in all, the command's included.
    fn length(&mut self) -> usize {
        match self.random.below(16) {
            0..=4 => self.random.between(0, 6),
            5..=8 => self.random.between(4, 10),
            9..=12 => self.random.between(7, 64),
            13 => self.random.between(255, 262),
            14 => 4 + self.random.between(255, 262),
            _ => self.random.between(65, 600),
        }
    }

    /// Mostly FF, the more so the longer: a program goes round its page and
    /// would clear it else.
    fn bytes(&mut self, command: u8, address: usize, length: usize) -> Vec<u8> {
        let spacing = if length > 600 { 4096 } else { self.random.pick(&[1, 8, 8, 64]) };
        let mut bytes = with_address(command, address);
        while bytes.len() < length {
            let byte = match self.random.one_in(spacing) {
                false => 0xFF,
                true if self.random.one_in(4) => self.random.byte(),
                true => !(1 << self.random.below(8)),
            };
            bytes.push(byte);
        }
        bytes.truncate(length);
        bytes
    }

    /// A transaction with its disturbances. Without its deselect, the next
    /// select is a second one and the bytes after it go on with this one.
    fn frame(&mut self, bytes: &[u8]) {
        if self.random.one_in(8) {
            self.unselected_transfers();
        }
        self.list.select();
        let again = self.random.one_in(6).then(|| self.random.below(bytes.len() + 1));
        for (at, &byte) in bytes.iter().enumerate() {
            if again == Some(at) {
                self.selects();
            }
            self.list.send(byte);
        }
        if again == Some(bytes.len()) {
            self.selects();
        }
        if !self.random.one_in(24) {
            self.list.deselect();
        }
    }

    fn selects(&mut self) {
        for _ in 0..self.random.between(1, 3) {
            self.list.select();
        }
    }

    /// Transfers and deselects while not selected, several in a row.
    fn unselected_transfers(&mut self) {
        if self.list.selected() {
            return;
        }
        for _ in 0..self.random.between(1, 7) {
            match self.random.below(4) {
                0 => self.list.deselect(),
                1 => self.list.send(self.random.pick(&COMMANDS)),
                _ => self.list.send(self.random.byte()),
            }
        }
    }

    /// What may stand after the read back: it changes no byte of the array.
    fn loose_end(&mut self) {
        match self.random.below(4) {
            0 => self.unselected_transfers(),
            1 => self.list.select(),
            2 => {
                self.list.transaction(&[0x06]);
                self.list.select();
                for byte in [0x02, 0x00, 0x00, 0x00, 0x00] {
                    self.list.send(byte);
                }
            }
            _ => {}
        }
    }
}
