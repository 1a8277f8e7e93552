//! The families of steps that only scripts have.

use crate::bus::families::Author;
use crate::bus::flash::{frame, with_address};
use crate::bus::kinds::{HOLD, LIVE, PRESS, READ, TURBO, WIPE, WRITE};
use crate::bus::list::List;
use crate::bus::memory::STRAY;
use crate::bus::panel::{command, dma};
use crate::common::edges::{fraction, TIME_EDGES, TURBO_EDGES};
use crate::common::generator::{family, Family};
use crate::common::numbers::*;
use crate::{FLASH_SIZE, RAM_SIZE, SRAM_LENGTH};

pub const OWN: [Family<Author>; 6] = [
    family("presses", presses),
    family("ends", ends),
    family("starts", starts),
    family("selects", selects),
    family("counters", counters),
    family("any", any),
];

/// Where one place ends and another begins.
#[rustfmt::skip]
const SEAMS: [u32; 14] = [
    FLASH_BASE, FLASH_BASE + FLASH_SIZE as u32, FLASH_BASE + RAM_SIZE as u32, GPIO_BASE,
    REGISTERS_C, REGISTERS_C_END, REGISTERS_D, REGISTERS_D_END, SRAM_BASE,
    SRAM_BASE + SRAM_LENGTH as u32, 0xF900_0000, REGISTERS_F, REGISTERS_F_END, 0,
];

/// As many as fit and more, and time about their beginnings and ends.
fn presses(author: &mut Author) {
    let most = author.random.pick(&[0.3, 0.3, 10.0, LAST_TIME]);
    let some = author.random.pick(&[0, 1, 4, 30, 62, 63, 64, 66]);
    let count = if author.random.one_in(50) { MOST_PRESSES } else { some };
    for _ in 0..count {
        let (key, time) = author.any_press(most);
        author.list.step(PRESS, key, time);
    }
    for _ in 0..author.random.between(1, 12) {
        author.press_passes();
        author.list.read(KEY_LINES);
        if author.random.one_in(4) {
            author.tap();
        }
    }
}

/// Accesses and pictures over every seam of the map, and flash commands at the
/// array's ends.
fn ends(author: &mut Author) {
    let at = author.seam();
    let (size, value) = (author.size(), author.bits());
    match author.random.below(6) {
        0..=2 => {
            author.list.write_sized(size, at, value);
            let back = author.random.below(5) as u32;
            author.list.read(at.wrapping_sub(back));
            author.list.read_sized(size, at);
        }
        3 => {
            let before = author.random.pick(&[0, 1, 0x7FFC, 0x7FFF, 0x8000, 0x8001]);
            dma(&mut author.list, at.wrapping_sub(before));
            for _ in 0..4 {
                author.pixel();
            }
        }
        4 => {
            let command = author.random.pick(&[0x02, 0x20, 0x52, 0xD8]);
            let data = author.data(size as usize - 1);
            author.frame(&[0x06]);
            author.frame(&with_address(command, at & 0xFF_FFFF, &data));
            author.list.read(at);
        }
        _ => author.frame(&with_address(0x03, at & 0xFF_FFFF, &[0; 7])),
    }
}

/// What was there before the script: in each memory, by each way to see it.
fn starts(author: &mut Author) {
    let address = author.address();
    match author.random.below(6) {
        0..=2 => {
            author.get_part(address & !3);
            author.get(KEY_LINES);
        }
        3 => {
            dma(&mut author.list, address);
            author.pixel();
        }
        4 => {
            let at = author.flash_address();
            author.frame(&with_address(0x0B, at, &[0; 4]));
        }
        _ => {
            command(&mut author.list, PAINT, &[]);
            let at = author.bits();
            author.list.pixel(at);
            author.list.pass(0.1);
        }
    }
}

/// Selects, deselects and bytes in any order, and what they came to.
fn selects(author: &mut Author) {
    for _ in 0..author.random.between(3, 12) {
        let select = author.random.pick(&[0, FLASH_SELECTED]);
        let byte = author.random.pick(&[0x06, 0x06, 0x05, 0x9F, 0x04, 0x20, 0x02, 0x00, 0x00]);
        if author.random.one_in(2) {
            author.list.write(SPIFC_SELECT, select);
        } else {
            author.list.write(SPIFC_SEND, byte);
            author.list.read(SPIFC_ANSWER);
        }
    }
    author.list.counters();
    if author.random.one_in(3) {
        frame(&mut author.list, &[0x05, 0]);
    }
}

/// More frames or flash writes than a byte counts.
fn counters(author: &mut Author) {
    let (picture, address) = (author.address(), author.flash_address());
    let frames = author.random.one_in(2);
    author.list.write(LCD_DMA, picture);
    for _ in 0..author.random.between(250, 300) {
        if frames {
            author.list.write(LCD_CONTROL, START_DMA);
        } else {
            for byte in [&[0x06][..], &with_address(0x20, address, &[])] {
                send(&mut author.list, byte);
            }
        }
    }
    author.list.counters();
}

/// A transaction without its answers.
fn send(list: &mut List, bytes: &[u8]) {
    list.write(SPIFC_SELECT, FLASH_SELECTED);
    for &byte in bytes {
        list.write(SPIFC_SEND, byte.into());
    }
    list.write(SPIFC_SELECT, 0);
}

/// Any kind with any numbers.
fn any(author: &mut Author) {
    let kind = author.random.between(1, 12) as u64 * 16;
    let size = author.random.pick(&[1, 2, 4, 4, 1, 2, 4, 4, 0, 3, 8, 15]);
    let address = author.any_address();
    let time = author.any_time();
    let value = author.value(&[0, 1, 0x40, 0x2000, 0xFFFF_FFFF]);
    let key = author.random.pick(&[0, 1, 2, 2, 3, 256, 0xFFFF_FFFF]);
    match kind {
        READ => author.list.read_sized(size, address),
        WRITE => author.list.write_sized(size, address, value),
        TURBO => {
            let edge = author.random.pick(&TURBO_EDGES).to_bits();
            let turbo = author.random.pick(&[edge, edge, time]);
            author.list.step(kind, 0, turbo)
        }
        LIVE => author.list.live(key, value.into()),
        HOLD => author.list.step(kind, key, time),
        WIPE if !author.random.one_in(8) => author.list.next(),
        _ => author.list.step(kind, address.into(), time),
    };
}

impl Author {
    /// A key and the bits of a time: mostly good ones.
    fn any_press(&mut self, most: f64) -> (u64, u64) {
        let (good, bad) = (self.random.below(3) as u64, self.random.byte().into());
        let key = if self.random.one_in(16) { bad } else { good };
        let edge = self.random.pick(&TIME_EDGES);
        let time = (fraction(&mut self.random) * most).to_bits();
        let same = (0.1 * most).to_bits();
        (key, self.random.pick(&[time, time, time, same, same, edge]))
    }

    /// To about the beginning or the end of a press, or a little further.
    fn press_passes(&mut self) {
        let now = self.list.now();
        let edges = self.list.system().key_script.iter().flat_map(|&(at, _)| [at, at + KEY_HOLD]);
        let ahead: Vec<f64> = edges.filter(|&edge| edge >= now).collect();
        if ahead.is_empty() || self.random.one_in(4) {
            let seconds = fraction(&mut self.random) * 0.2;
            self.go(now + seconds);
        } else {
            let edge = self.random.pick(&ahead);
            let time = self.about(edge);
            self.go(time);
        }
        self.list.next();
    }

    fn seam(&mut self) -> u32 {
        let seam = self.random.pick(&SEAMS);
        let beside = self.random.between(0, 10) as u32;
        seam.wrapping_add(beside).wrapping_sub(6)
    }

    fn any_address(&mut self) -> u32 {
        match self.random.below(6) {
            0 => self.bits(),
            1 => self.random.pick(&STRAY),
            2 => self.seam(),
            3 => self.address(),
            _ => self.any_word() + self.random.below(4) as u32,
        }
    }

    /// The bits of a time: an edge, or mostly one soon.
    fn any_time(&mut self) -> u64 {
        let (edge, bits) = (self.random.pick(&TIME_EDGES), self.random.next());
        let soon = self.list.now() + fraction(&mut self.random) * 0.1;
        let soon = soon.to_bits();
        if self.random.one_in(6) {
            self.random.pick(&[edge, bits])
        } else {
            soon
        }
    }
}
