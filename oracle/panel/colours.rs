//! The families for the panel's colours and for the lengths of its memories.

use crate::common::numbers::{FRAMEBUFFER_BYTES, PAINT, PIXELS, SCREEN_BYTES};
use crate::families::Author;
use crate::steps::*;

/// The first colours of the four DMAs that bring all 65,536 colours.
pub const QUARTERS: [u64; 4] = [0x0000, 0x4000, 0x8000, 0xC000];

/// All colours, by the whole screen and pixel by pixel. The seed says in which
/// order.
pub fn all_colours(author: &mut Author) {
    let first = author.random.below(4);
    let stride = 2 * author.random.below(PIXELS / 2) + 1;
    for at in 0..4 {
        let list = &mut author.list;
        list.dma(QUARTERS[(first + at) % 4]);
        list.rgb();
        list.look_screen();
        // An odd stride comes to each pixel once.
        for pixel in 0..PIXELS {
            list.pixel_rgb(pixel * stride % PIXELS);
        }
    }
}

/// The colours of a DMA that begins anywhere, and of a few pixels.
pub fn some_colours(author: &mut Author) {
    if author.random.one_in(2) {
        author.dma();
    }
    author.list.rgb();
    for _ in 0..author.random.between(1, 8) {
        // A pixel beyond the last counts from the first again.
        let pixel = author.random.next() as u32 as usize;
        author.list.pixel_rgb(pixel);
        let at = author.random.below(SCREEN_BYTES / LOOK_BYTES) as u64;
        author.list.look(LOOK_SCREEN + at);
        author.list.look(LOOK_FRAMEBUFFER + at);
    }
    author.look();
}

const FRAMEBUFFER_LENGTHS: [usize; 6] =
    [0, 1, FRAMEBUFFER_BYTES - 1, FRAMEBUFFER_BYTES, FRAMEBUFFER_BYTES + 1, 0xFFFF_FFFF];
const SCREEN_LENGTHS: [usize; 7] =
    [0, 1, FRAMEBUFFER_BYTES, SCREEN_BYTES - 1, SCREEN_BYTES, SCREEN_BYTES + 1, usize::MAX];

/// Memories that are too short, or just long enough, between good steps.
pub fn lengths(author: &mut Author) {
    let (columns, rows) = (author.few(), author.few());
    author.list.window(columns, rows);
    author.command(PAINT);
    for _ in 0..author.random.between(1, 6) {
        let framebuffer = length(author, &FRAMEBUFFER_LENGTHS, FRAMEBUFFER_BYTES);
        if author.random.one_in(4) {
            let screen = length(author, &SCREEN_LENGTHS, SCREEN_BYTES);
            author.list.lent_rgb(framebuffer, screen);
            author.list.look_checksums();
        } else {
            // What stands above the byte is cut off.
            let value = author.random.next();
            author.list.step(LENT_DATA, framebuffer as u64, value);
            author.look();
        }
        let count = author.random.below(4);
        author.any_data(count);
    }
    if author.random.one_in(4) {
        lent_argument(author);
    }
    author.look();
}

fn length(author: &mut Author, edges: &[usize], all: usize) -> usize {
    match author.random.below(4) {
        0 => author.random.below(all + 1),
        1 => all,
        _ => author.random.pick(edges),
    }
}

/// A byte that is no pixel's is refused as well.
fn lent_argument(author: &mut Author) {
    let command = author.any_command();
    author.command(command);
    author.any_data(3);
    for length in [FRAMEBUFFER_BYTES - 1, FRAMEBUFFER_BYTES] {
        let byte = author.random.byte();
        author.list.lent_data(length, byte);
        author.list.look_command();
        author.list.look_window();
    }
}
