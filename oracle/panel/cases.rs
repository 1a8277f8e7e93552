//! The cases of the fixed list about commands, windows and frames.

use crate::common::generator::expect;
use crate::common::numbers::{COLUMNS, PAINT, ROWS};
use crate::list::*;
use crate::steps::NONE;

/// The whole glass is the window, and the pen stands at its beginning.
pub fn restart(list: &mut List) {
    list.window((0, 127), (0, 127));
    list.command(PAINT);
}

/// Pixels one by one, with a look after each.
fn paint(list: &mut List, colours: impl Iterator<Item = u16>) {
    for colour in colours {
        list.data(&colour.to_be_bytes());
        list.look_window();
    }
}

fn expect_window(list: &mut List, ends: u64, pen: (u64, u64), frames: u64) {
    expect(list.look_window(), 0, [ends, pen.0 << 16 | pen.1, frames]);
}

/// The ends come with the fourth argument, and not again with the eighth.
pub fn argument_counts(list: &mut List) {
    for command in [COLUMNS, ROWS] {
        for count in 0..=9 {
            restart(list);
            list.command(command);
            list.data(&[0x01, 0x02, 0x13, 0x24, 0x35, 0x46, 0x57, 0x68, 0x79][..count]);
            list.look_window();
            list.look_command();
        }
    }
    restart(list);
    list.command(COLUMNS);
    list.data(&[0x01, 0x02, 0x13]);
    expect_window(list, 0x0000_007F_0000_007F, (0, 0), 0);
    list.data(&[0x24]);
    expect_window(list, 0x0102_1324_0000_007F, (0, 0), 0);
    expect(list.look_command(), 0, [COLUMNS.into(), NONE, 0x4_0102_1324]);
    list.command(ROWS);
    list.data(&[0xFF, 0xFE, 0x00, 0x03]);
    expect_window(list, 0x0102_1324_FFFE_0003, (0, 0), 0);
}

/// A command begins its arguments anew, whatever came before.
pub fn arguments_cut_short(list: &mut List) {
    restart(list);
    for (before, command) in [(COLUMNS, COLUMNS), (COLUMNS, ROWS), (0x00, ROWS), (PAINT, COLUMNS)] {
        list.command(before);
        list.data(&[0x00, 0x11, 0x00]);
        list.command(command);
        list.look_command();
        list.data(&[0x22]);
        list.look_window();
        list.data(&[0x33, 0x44, 0x55]);
        list.look_window();
    }
    // Arguments of one command become those of another only if it is put.
    restart(list);
    list.command(0x00);
    list.data(&[0x00, 0x05, 0x00]);
    for command in [NONE, COLUMNS.into()] {
        list.put(CURRENT, command);
        list.data(&[0x06]);
        list.look_window();
        list.look_command();
    }
}

/// What comes between arguments leaves them; once set, the ends are not set
/// again by more of them.
pub fn arguments_go_on(list: &mut List) {
    for command in [COLUMNS, ROWS] {
        restart(list);
        list.command(command);
        list.data(&[0x00, 0x08, 0x00]);
        list.dma(0x5678);
        list.rgb();
        list.look_command();
        list.data(&[0x09]);
        list.look_window();
        for place in X0..=Y1 {
            list.put(place, 3);
        }
        for byte in 0x0A..0x0F {
            list.data(&[byte]);
            list.look_window();
        }
        list.look_command();
    }
}

/// Data before any command: an argument of none, and no pixel.
pub fn no_command(list: &mut List) {
    restart(list);
    list.put(CURRENT, NONE);
    for byte in [0x00, 0x01, 0x00, 0x02, 0x03] {
        list.data(&[byte]);
        list.look_command();
    }
    list.look_window();
    list.look_checksums();
}

/// Each command that differs from one of the three in one bit, and a few more,
/// with what would be ends or pixels.
pub fn other_commands(list: &mut List) {
    restart(list);
    let near = (0..8).flat_map(|bit| [COLUMNS, ROWS, PAINT].map(|known| known ^ 1 << bit));
    for command in near.chain([0x00, 0x28, 0x29, 0x2D, 0x30, 0xFF]) {
        list.command(command);
        list.data(&[0x00, command, 0x00, 0xFF - command]);
        list.look_window();
    }
    list.look_checksums();
}

/// What ends a half byte, and what leaves it.
pub fn half_bytes(list: &mut List) {
    restart(list);
    list.data(&[0xA1]);
    expect(list.look_command(), 0, [PAINT.into(), 0xA1, 0]);
    for command in [PAINT, COLUMNS, ROWS, 0x00, 0x2D] {
        list.command(PAINT);
        list.data(&[0xA1, 0xB2, 0xC3]);
        list.command(command);
        expect(list.look_command(), 0, [command.into(), NONE, 0]);
        list.command(PAINT);
        list.data(&[0xD4, 0xE5]);
        list.look_window();
        list.look_checksums();
    }
    list.data(&[0x55]);
    list.dma(0x1234);
    list.rgb();
    expect(list.look_command(), 0, [PAINT.into(), 0x55, 0]);
    list.data(&[0xAA, 0x01]);
    list.look_command();
    list.look_checksums();
    list.data(&[0x02, 0x03, 0x04, 0x05, 0x06]);
    list.look_command();
    list.look_checksums();
}

/// New ends leave the pen where it is; the command to paint moves it.
pub fn pen(list: &mut List) {
    restart(list);
    list.data(&[0x11, 0x11, 0x22, 0x22]);
    list.window((10, 12), (20, 21));
    list.look_window();
    list.put(Y, 77);
    for command in [0x00, 0x2D, PAINT, PAINT] {
        list.command(command);
        list.look_window();
    }
    // With other ends but no command to paint, it goes on from where it was.
    list.data(&[0x33, 0x33]);
    list.rows((50, 51));
    list.columns((3, 11));
    list.put(CURRENT, PAINT.into());
    paint(list, 0x4440..0x4443);
    list.look_checksums();
}

/// Windows on the glass, across its edges and off it, in order and not, with
/// how many pixels they have. Each is painted once and one pixel more.
pub fn windows(list: &mut List) {
    let cases = [
        ((5, 7), (9, 10), 6),
        ((0, 0), (0, 0), 1),
        ((127, 127), (127, 127), 1),
        ((126, 129), (126, 129), 16),
        ((127, 128), (3, 4), 4),
        ((3, 4), (127, 128), 4),
        ((128, 129), (5, 6), 4),
        ((5, 6), (128, 129), 4),
        ((0xFFFE, 0xFFFF), (0xFFFE, 0xFFFF), 4),
        ((256, 257), (0, 1), 4),
        ((0, 1), (256, 257), 4),
        // Out of order, a row has one pixel, and a frame one row.
        ((7, 6), (11, 12), 2),
        ((11, 12), (7, 6), 2),
        ((9, 3), (8, 2), 1),
        ((0xFFFF, 0), (0xFFFF, 0), 1),
        ((130, 100), (100, 101), 2),
    ];
    for (at, (columns, rows, pixels)) in cases.into_iter().enumerate() {
        list.window(columns, rows);
        list.command(PAINT);
        let first = 0x1001 + 0x100 * at as u16;
        let frames = list.device.lcd().frames;
        paint(list, first..first + pixels);
        assert_eq!(list.device.lcd().frames, frames + 1);
        paint(list, [0xFFFF].into_iter());
        list.look_checksums();
    }
}

/// Black and white and what lies between are painted alike, over another
/// colour.
pub fn plain_colours(list: &mut List) {
    list.dma(0x2000);
    list.window((60, 61), (1, 1));
    list.command(PAINT);
    for colour in [0x0000, 0xFFFF, 0x00FF, 0xFF00, 0x2C2C, 0x2A2B, 0x0001, 0x0000u16] {
        list.data(&colour.to_be_bytes());
        list.look_checksums();
    }
}

/// Whole rows, and the last row of the whole glass.
pub fn whole_rows(list: &mut List) {
    list.window((0, 127), (64, 64));
    list.command(PAINT);
    let row: Vec<u8> = (0..=255).collect();
    list.data(&row[..254]);
    list.look_window();
    paint(list, [0xFEFF, 0xABCD].into_iter());
    restart(list);
    list.put(X, 125);
    list.put(Y, 127);
    paint(list, 0xF001..0xF006);
    list.put(X, 127);
    paint(list, 0xF006..0xF008);
    list.look_checksums();
}

/// The count of frames goes round, by pixels and by DMA.
pub fn frame_counts(list: &mut List) {
    for ends in [(3, 3), (4, 3), (0xFFFF, 0xFFFF)] {
        list.window(ends, ends);
        list.command(PAINT);
        list.put(FRAMES, u64::MAX - 1);
        paint(list, 0x7001..0x7004);
    }
    assert_eq!(list.device.lcd().frames, 1);
    for count in [u64::MAX, 0xFF, 0xFFFF_FFFF] {
        list.put(FRAMES, count);
        list.dma(count);
        expect(list.look_window(), 0, [0xFFFF_FFFF_FFFF_FFFF, 0xFFFF_FFFF, count.wrapping_add(1)]);
    }
    list.look_checksums();
}
