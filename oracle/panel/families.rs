//! The families of lists for the panel, and what their authors share.

use crate::colours::{all_colours, lengths, some_colours};
use crate::common::generator::{family, whole_family, Authorship, Family};
use crate::common::numbers::{COLUMNS, PAINT, ROWS};
use crate::common::random::Random;
use crate::fixed::fixed_list;
use crate::frames::{damage, frames, wild};
use crate::list::*;
use crate::steps::{Panel, COMMAND, DATA, MOST};
use crate::windows::{arguments, halves, windows};

const FAMILIES: [Family<Author>; 9] = [
    family("windows", windows),
    family("arguments", arguments),
    family("halves", halves),
    family("frames", frames),
    family("damage", damage),
    whole_family("colours", all_colours),
    family("lengths", lengths),
    family("wild", wild),
    family("mixture", mixture),
];

/// Mostly each action belongs to another family; a few colours stand for all
/// of them.
fn mixture(author: &mut Author) {
    let action = author.random.pick(&[
        windows,
        arguments,
        halves,
        frames,
        damage,
        some_colours,
        lengths,
        wild,
    ]);
    action(author);
}

pub struct Author {
    pub random: Random,
    pub list: List,
    /// The command whose turn it is, so that all come up.
    next_command: u8,
}

impl Authorship for Author {
    type Device = Panel;
    const PROGRAM: &'static str = "oracle_panel_generate";
    const FAMILIES: &'static [Family<Author>] = &FAMILIES;

    fn new(seed: u64) -> Author {
        // One seed after the other leaves no gaps.
        let next_command = (seed as u8).wrapping_mul(64);
        Author { random: Random::new(seed), list: List::new(), next_command }
    }

    fn list(&mut self) -> &mut List {
        &mut self.list
    }

    fn into_list(self) -> List {
        self.list
    }

    fn end(&mut self) {
        self.list.begin("ending");
        self.list.look_all();
    }

    fn fixed_list() -> List {
        fixed_list()
    }
}

/// Ends at the edges of the glass, of a byte and of all.
const EDGES: [u16; 16] =
    [0, 1, 2, 126, 127, 128, 129, 254, 255, 256, 257, 0x7FFF, 0x8000, 0xFF00, 0xFFFE, 0xFFFF];

impl Author {
    pub fn edge(&mut self) -> u16 {
        match self.random.below(4) {
            0 => self.random.next() as u16,
            1 => self.random.between(124, 131) as u16,
            _ => self.random.pick(&EDGES),
        }
    }

    /// Columns or rows, few of them: on the glass, at its edge, off it.
    pub fn few(&mut self) -> Ends {
        let first = match self.random.below(4) {
            0 => self.random.between(124, 130) as u16,
            1 => self.edge(),
            _ => self.random.below(128) as u16,
        };
        (first, first.saturating_add(self.random.below(4) as u16))
    }

    pub fn out_of_order(&mut self) -> Ends {
        let last = self.random.pick(&[0, 1, 5, 126, 127, 128, 300]);
        let first = match self.random.below(3) {
            0 => last + 1,
            1 => last + self.random.between(2, 200) as u16,
            _ => 0xFFFF,
        };
        (first, last)
    }

    /// A command's byte, and something above it that is cut off.
    pub fn command(&mut self, command: u8) {
        let above = if self.random.one_in(4) { self.random.next() << 8 } else { 0 };
        let address = self.random.pick(&[0, 0, 0, 1, 0xFFFF_FFFF]);
        self.list.step(COMMAND, address, above | u64::from(command));
    }

    /// One of the commands that do something, or the one whose turn it is.
    pub fn any_command(&mut self) -> u8 {
        if self.random.one_in(2) {
            return self.random.pick(&[COLUMNS, ROWS, PAINT]);
        }
        self.next_command = self.next_command.wrapping_add(1);
        self.next_command
    }

    /// Data bytes in steps of any lengths.
    pub fn data(&mut self, bytes: &[u8]) {
        let mut rest = bytes;
        while !rest.is_empty() {
            let most = rest.len().min(MOST);
            let count = if self.random.one_in(3) { self.random.between(0, most) } else { most };
            let (some, after) = rest.split_at(count);
            self.data_step(some);
            rest = after;
        }
    }

    /// What stands above the bytes is cut off, and a number of bytes above the
    /// most counts as the most.
    fn data_step(&mut self, bytes: &[u8]) {
        let above = self.random.next() * self.random.below(2) as u64;
        let value = bytes.iter().fold(above, |value, &byte| value << 8 | u64::from(byte));
        let count = match bytes.len() {
            MOST => self.random.pick(&[8, 8, 8, 9, 0xFFFF_FFFF]),
            count => count as u64,
        };
        self.list.step(DATA, count, value);
    }

    /// Some are alike, so that black and white pixels are among them, and some
    /// are a command's number.
    pub fn bytes(&mut self, count: usize) -> Vec<u8> {
        let byte = |random: &mut Random| match random.below(3) {
            0 => random.pick(&[0x00, 0x00, 0xFF, 0xFF, COLUMNS, ROWS, PAINT]),
            _ => random.byte(),
        };
        (0..count).map(|_| byte(&mut self.random)).collect()
    }

    pub fn any_data(&mut self, count: usize) {
        let bytes = self.bytes(count);
        self.data(&bytes);
    }

    /// Pixels for a small window about once or twice, for a large one a row.
    pub fn pixels(&mut self) {
        let lcd = self.list.device.lcd();
        let across = |first: u32, last: u32| (last + 1).saturating_sub(first).max(1) as usize;
        let window = across(lcd.x0, lcd.x1) * across(lcd.y0, lcd.y1);
        let count = match self.random.below(3) {
            0 => window,
            1 => self.random.between(1, window + 3),
            _ => 2 * window + 1,
        };
        let most = self.random.pick(&[24, 40, 140]);
        self.any_data(2 * count.min(most));
    }

    /// All pixels change, so what they were is looked at before.
    pub fn dma(&mut self) {
        self.list.look_checksums();
        self.list.dma(self.random.next());
    }

    /// The state that the last steps have led to, mostly.
    pub fn look(&mut self) {
        self.list.look_window();
        if self.random.one_in(2) {
            self.list.look_command();
        }
        if self.random.one_in(8) {
            self.list.look_checksums();
        }
    }
}
