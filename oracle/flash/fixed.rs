//! The fixed list: each rule of the device at least once, in little text.
//! It holds no transaction as long as the array; the random lists do.

use crate::list::{with_address, List, COMMANDS};
use crate::transactions::Author;

const TRANSACTIONS: usize = 1500;

/// The pages that the random part programs; they are read back at the end.
const PAGES: [usize; 8] = [0x0000, 0x0F00, 0x1000, 0x1200, 0x7F00, 0x8000, 0xFE00, 0xFF00];

/// Both sides of the edges of a sector, a half block and the array.
const MARKS: [usize; 7] = [0x0000, 0x0FFF, 0x1000, 0x1FFF, 0x7FFF, 0x8000, 0xFFFF];

pub fn fixed_list() -> List {
    let mut author = Author::new(0);
    let list = &mut author.list;
    unselected(list);
    short_lengths(list);
    first_bytes(list);
    page_lengths(list);
    long_programs(list);
    edges(list);
    identities(list);
    erases(list);
    second_selects(list);
    while author.list.transactions() < TRANSACTIONS {
        let command = author.command();
        let page = author.random.pick(&PAGES) | author.random.below(256) << 16;
        let address = page | author.random.below(256);
        let length = author.random.between(0, 12);
        author.prepare(command);
        author.send(command, address, length);
    }
    for page in PAGES {
        author.list.read_back(page, 256);
    }
    author.list
}

fn enabled(list: &mut List, command: u8, address: usize, data: &[u8]) {
    list.transaction(&[0x06]);
    let mut bytes = with_address(command, address);
    bytes.extend(data);
    list.transaction(&bytes);
}

fn status(list: &mut List) {
    list.transaction(&[0x05, 0x00]);
}

fn sends(list: &mut List, bytes: &[u8]) {
    for &byte in bytes {
        list.send(byte);
    }
}

/// Transfers count while not selected, but a deselect then ends nothing.
fn unselected(list: &mut List) {
    sends(list, &[0x9F, 0x00, 0x00, 0x00, 0x00]);
    list.deselect();
    list.send(0x00);
    list.transaction(&[]);
    sends(list, &[0x06]);
    list.deselect();
    status(list);
    enabled(list, 0x02, 0x1200, &[0xA5]);
    // These belong to a program that has ended.
    sends(list, &[0x00, 0x00]);
    list.deselect();
    list.read_back(0x1200, 4);
    // These go on with a read whose address was not yet whole.
    list.transaction(&[0x03, 0x00, 0x12]);
    sends(list, &[0x00, 0x00, 0x00]);
    list.deselect();
    list.transaction(&[0x06]);
    list.transaction(&[0x05]);
    sends(list, &[0x00, 0x00]);
    list.transaction(&[0x04]);
}

fn short_lengths(list: &mut List) {
    for command in COMMANDS {
        enabled(list, 0x02, 0x1234, &[0x5A, 0xC3]);
        for length in 0..=6 {
            list.transaction(&[0x06]);
            let mut bytes = with_address(command, 0x1234);
            bytes.extend([0xF3, 0xDF]);
            list.transaction(&bytes[..length]);
            status(list);
        }
        list.read_back(0x1233, 4);
    }
}

/// First bytes that are no command answer FF and leave write enable as it
/// is, once set and once not.
fn first_bytes(list: &mut List) {
    for enable in [0x06, 0x04] {
        list.transaction(&[enable]);
        for (at, first) in (0..=255).filter(|byte| !COMMANDS.contains(byte)).enumerate() {
            list.transaction(&[first, 0x00, 0x12, 0x34, 0x00, 0x00]);
            if at % 16 == 0 {
                status(list);
            }
        }
        status(list);
    }
    list.read_back(0x1233, 4);
}

fn page_lengths(list: &mut List) {
    for (at, command) in COMMANDS.into_iter().enumerate() {
        let mut data = [0xFF; 258];
        data[at] = 0x7E;
        enabled(list, command, 0x0FF8, &data[..258 - at % 8]);
        status(list);
    }
    list.read_back(0x0F00, 256);
    for length in 255..=262 {
        list.read_back(0x0EFA, length - 4);
    }
}

/// Programs of 255 to 262 data bytes: those past a page's length are ANDed
/// into places that have had a byte before.
fn long_programs(list: &mut List) {
    for length in 255..=262 {
        let data: Vec<u8> = (0..length)
            .map(|at| match at {
                0..=7 => 0xF0 | at as u8,
                248.. => 0x0F | (at as u8) << 4,
                _ => 0xFF,
            })
            .collect();
        enabled(list, 0x02, 0xFE37, &data);
        status(list);
        list.read_back(0xFE00, 256);
        enabled(list, 0x20, 0xF000, &[]);
    }
}

/// Programs go round within their page, reads at the end of the array.
fn edges(list: &mut List) {
    enabled(list, 0x02, 0x12FC, &[0x01, 0x02, 0x03, 0x04, 0x05, 0x06, 0x07, 0x08]);
    list.read_back(0x1200, 5);
    list.read_back(0x12FA, 8);
    enabled(list, 0x02, 0xFFFF, &[0x3C, 0x5A]);
    enabled(list, 0x02, 0x0000, &[0x11]);
    // A second program clears bits and sets none.
    enabled(list, 0x02, 0xFFFF, &[0xF0]);
    list.read_back(0xFF00, 2);
    for address in [0x00_FFFE, 0x01_FFFF, 0xFF_FFFD, 0x7F_0000] {
        list.read_back(address, 6);
        let mut fast = with_address(0x0B, address);
        fast.resize(5 + 6, 0x00);
        list.transaction(&fast);
    }
}

fn identities(list: &mut List) {
    for address in [0x00_0000, 0x00_0001, 0x00_0003, 0x12_3456, 0xFF_FFFF] {
        for command in [0x90, 0xAB, 0x4B, 0x9F] {
            let mut bytes = with_address(command, address);
            bytes.resize(10, 0xFF);
            list.transaction(&bytes);
        }
    }
}

/// Each erase without and with trailing bytes; what it leaves shows at the
/// marks.
fn erases(list: &mut List) {
    for command in [0x20, 0x52, 0xD8, 0xC7, 0x60] {
        for (address, trailing) in [(0x00_1234, 0), (0x7F_1FFF, 2)] {
            for mark in MARKS {
                enabled(list, 0x02, mark, &[0x69]);
            }
            enabled(list, command, address, &[0x00, 0x00][..trailing]);
            status(list);
            for mark in MARKS {
                list.read_back(mark, 1);
            }
        }
    }
    enabled(list, 0x02, 0x1200, &[0x42]);
    list.transaction(&[0x06]);
    list.transaction(&[0xC7]);
    list.read_back(0x1200, 1);
}

/// A second select is no boundary, wherever it stands.
fn second_selects(list: &mut List) {
    for again in 0..=6 {
        list.transaction(&[0x06]);
        list.select();
        for (at, byte) in [0x02, 0x00, 0x12, again, 0x3F, 0xFC].into_iter().enumerate() {
            if at == usize::from(again) {
                list.select();
            }
            list.send(byte);
        }
        list.select();
        list.select();
        list.deselect();
        list.deselect();
        status(list);
    }
    list.read_back(0x1200, 10);
    list.select();
    list.send(0x06);
    list.transaction(&[0x9F, 0x00, 0x00]);
    status(list);
    list.transaction(&[0x04]);
    status(list);
}
