//! The families for the panel's windows, for arguments and for half bytes.

use crate::common::numbers::{FRAMEBUFFER_BYTES, PAINT};
use crate::families::Author;
use crate::list::*;

/// Ends in order and out of order, on the glass, across its edge and far off,
/// of any width.
fn any_ends(author: &mut Author) -> Ends {
    match author.random.below(8) {
        0 => author.out_of_order(),
        1 => (author.edge(), author.edge()),
        2 => (0, 127),
        3 => {
            let only = author.edge();
            (only, only)
        }
        4 => (126 + author.random.below(3) as u16, 126 + author.random.below(4) as u16),
        _ => author.few(),
    }
}

pub fn windows(author: &mut Author) {
    if author.list.steps() == 0 && author.random.one_in(4) {
        whole_glass(author);
    }
    let (columns, rows) = (any_ends(author), any_ends(author));
    match author.random.below(4) {
        0 => author.list.columns(columns),
        1 => author.list.rows(rows),
        2 => author.list.window(columns, rows),
        _ => {
            author.list.rows(rows);
            author.list.columns(columns);
        }
    }
    // The pen stays until the next command to paint.
    author.look();
    if author.random.one_in(8) {
        return;
    }
    author.command(PAINT);
    if author.random.one_in(4) {
        near_the_end(author);
    }
    author.pixels();
    author.look();
}

/// A frame as programs bring it, and the next one's first pixel.
fn whole_glass(author: &mut Author) {
    author.command(PAINT);
    let bytes = author.bytes(FRAMEBUFFER_BYTES + 2);
    author.list.data(&bytes);
    author.look();
}

/// A window too large to be painted is begun near the end of a row or of the
/// last row.
fn near_the_end(author: &mut Author) {
    let lcd = author.list.device.lcd();
    let before = |end: u32, by: usize| u64::from(end.saturating_sub(by as u32));
    let (x1, y1) = (lcd.x1, lcd.y1);
    let (columns, rows) = (author.random.below(4), author.random.below(2));
    author.list.put(X, before(x1, columns));
    author.list.put(Y, before(y1, rows));
}

/// Up to nine arguments: cut short, just enough, or run on; and data where no
/// command came before.
pub fn arguments(author: &mut Author) {
    if author.random.one_in(16) {
        author.list.put(CURRENT, 0x100 + author.random.below(0x100) as u64);
    } else if author.list.steps() > 0 {
        let command = author.any_command();
        author.command(command);
    }
    let count = author.random.between(0, 9);
    let bytes = argument_bytes(author, count);
    author.data(&bytes);
    author.look();
    if author.random.one_in(4) {
        more_arguments(author);
    }
    if author.random.one_in(4) {
        author.command(PAINT);
        author.any_data(5);
        author.look();
    }
}

/// A few more after something else. An end is put, so that it shows if they
/// set it again.
fn more_arguments(author: &mut Author) {
    match author.random.below(4) {
        0 => author.dma(),
        1 => {
            author.list.rgb();
        }
        _ => {
            let place = author.random.pick(&[X0, X1, Y0, Y1]);
            author.list.put(place, 5);
        }
    }
    let count = author.random.between(1, 4);
    author.any_data(count);
    author.list.look_command();
    author.list.look_window();
}

/// Half of them are ends on the glass, so that something shows there.
fn argument_bytes(author: &mut Author, count: usize) -> Vec<u8> {
    if author.random.one_in(2) {
        return author.bytes(count);
    }
    (0..count).map(|at| (at % 2 * author.random.below(130)) as u8).collect()
}

/// Odd numbers of data bytes, and what comes while a half byte is held.
pub fn halves(author: &mut Author) {
    if author.random.one_in(2) {
        let (columns, rows) = (author.few(), author.few());
        author.list.window(columns, rows);
    }
    author.command(PAINT);
    let pixels = author.random.below(5);
    author.any_data(2 * pixels + 1);
    author.list.look_command();
    match author.random.below(6) {
        0 => author.command(PAINT),
        1 | 2 => {
            let command = author.any_command();
            author.command(command);
        }
        3 => author.dma(),
        4 => {
            author.list.rgb();
        }
        _ => {}
    }
    author.look();
    let count = author.random.between(1, 6);
    author.any_data(count);
    author.look();
}
