//! The families for the panel's frames, for damaged data that later data
//! heals, and for wild state.

use crate::common::numbers::{COLUMNS, PAINT, ROWS};
use crate::common::step::{LOOK, PUT};
use crate::families::Author;
use crate::list::*;

/// Counts of frames that go round soon, or at which some narrower count would.
const FRAME_COUNTS: [u64; 8] =
    [u64::MAX, u64::MAX - 1, u64::MAX - 2, 0, 0xFF, 0xFFFF, 0xFFFF_FFFF, 0x7FFF_FFFF_FFFF_FFFF];

pub fn frames(author: &mut Author) {
    if author.random.one_in(4) {
        let count = author.random.pick(&FRAME_COUNTS);
        author.list.put(FRAMES, count);
    }
    match author.random.below(4) {
        0 => frames_by_dma(author),
        1 => {
            let (columns, rows) = (author.out_of_order(), author.out_of_order());
            frames_by_window(author, columns, rows);
        }
        2 => {
            let (columns, (top, bottom)) = (author.few(), author.few());
            let rows = if author.random.one_in(2) { (bottom, top) } else { (top, bottom) };
            frames_by_window(author, columns, rows);
        }
        _ => {
            let (x, y) = (author.edge(), author.edge());
            frames_by_window(author, (x, x), (y, y));
        }
    }
}

fn frames_by_dma(author: &mut Author) {
    for _ in 0..author.random.between(1, 3) {
        author.dma();
        author.list.look_window();
    }
}

/// A look after each pixel at first, so that the one that ends a frame shows.
fn frames_by_window(author: &mut Author, columns: Ends, rows: Ends) {
    author.list.window(columns, rows);
    author.command(PAINT);
    for _ in 0..author.random.between(1, 5) {
        author.any_data(2);
        author.list.look_window();
    }
    author.pixels();
    author.look();
}

/// A small window on the glass is painted, with bytes missing, added and
/// changed, and then painted again without damage.
pub fn damage(author: &mut Author) {
    let (left, top) = (author.random.below(125) as u16, author.random.below(125) as u16);
    let (right, bottom) =
        (left + author.random.below(4) as u16, top + author.random.below(4) as u16);
    let whole = 2 * usize::from(right - left + 1) * usize::from(bottom - top + 1);
    author.list.window((left, right), (top, bottom));
    author.command(PAINT);
    let mut bytes = author.bytes(whole);
    for _ in 0..author.random.between(1, 3) {
        author.random.damage(&mut bytes);
    }
    author.data(&bytes);
    author.look();
    author.command(PAINT);
    author.any_data(whole);
    author.list.look_checksums();
    author.look();
}

/// State that no run leaves, put in place: the pen beyond the window or off
/// the glass, ends, half bytes, commands or none. Then bytes.
pub fn wild(author: &mut Author) {
    for _ in 0..author.random.between(1, 5) {
        put_anything(author);
    }
    author.look();
    match author.random.below(4) {
        0 => {
            author.command(PAINT);
        }
        1 => {
            let command = author.any_command();
            author.command(command);
        }
        // So the pen stays where it is.
        _ => {
            author.list.put(CURRENT, PAINT.into());
        }
    }
    let count = author.random.between(1, 12);
    author.any_data(count);
    author.look();
    if author.random.one_in(8) {
        nothing(author);
    }
}

fn put_anything(author: &mut Author) {
    // What stands above the last 16 or 9 bits is cut off.
    let above = author.random.next() * author.random.below(2) as u64;
    match author.random.below(10) {
        6 => author.list.put(FRAMES, above),
        7 => {
            let command = current(author);
            author.list.put(CURRENT, above << 9 | command)
        }
        8 => author.list.put(HALF, above << 9 | author.random.below(512) as u64),
        9 => {
            let (columns, rows) = (author.few(), author.few());
            author.list.put(X0, columns.0.into());
            author.list.put(X1, columns.1.into());
            author.list.put(Y0, rows.0.into());
            author.list.put(Y1, rows.1.into())
        }
        place => {
            let place_value = author.edge();
            author.list.put(place as u64, above << 16 | u64::from(place_value))
        }
    };
}

/// One of the commands that do something, or any, or none.
fn current(author: &mut Author) -> u64 {
    let any = author.random.below(512) as u64;
    author.random.pick(&[COLUMNS.into(), ROWS.into(), PAINT.into(), any])
}

/// Kinds, looks and places that are not there.
fn nothing(author: &mut Author) {
    let kind = author.random.pick(&[0x0, 0x8, 0x9, 0xA, 0xD, 0xE, 0xF, 0x12, 0x82, 0xFF]);
    let (address, value) = (author.random.next() as u32, author.random.next());
    author.list.step(kind, address.into(), value);
    for kind in [LOOK, PUT] {
        let address = author.random.pick(&[9, 10, 0x101, 0xFFFF, 0x1_0556, 0x2_0800, 0x8000_0000]);
        author.list.step(kind, address, value);
    }
    author.look();
}
