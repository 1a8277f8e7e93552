//! The fixed list for the panel: the paper's example, then each rule and each
//! edge at least once, in little text, then random steps.

use crate::cases::*;
use crate::colours::QUARTERS;
use crate::common::generator::{expect, take_turns, Authorship};
use crate::common::numbers::*;
use crate::common::step::{LOOK, PUT};
use crate::families::Author;
use crate::list::*;
use crate::steps::*;

/// With the last turn and the ending there are at most 2,950.
const STEPS: usize = 2_850;

const TURNS: [&str; 8] =
    ["windows", "arguments", "halves", "frames", "damage", "lengths", "wild", "mixture"];

pub fn fixed_list() -> List {
    let mut author = Author::new(0);
    let list = &mut author.list;
    list.begin("examples");
    examples(list);
    list.begin("arguments");
    argument_counts(list);
    arguments_cut_short(list);
    arguments_go_on(list);
    no_command(list);
    other_commands(list);
    list.begin("halves");
    half_bytes(list);
    list.begin("windows");
    pen(list);
    windows(list);
    whole_rows(list);
    plain_colours(list);
    list.begin("frames");
    frame_counts(list);
    list.begin("colours");
    colours(list);
    list.begin("damage");
    damage_heals(list);
    list.begin("lengths");
    lengths(list);
    list.begin("wild");
    wild_state(list);
    nothing(list);
    counts_and_cuts(list);
    restart(list);
    take_turns(&mut author, &TURNS, STEPS);
    author.list.begin("ending");
    author.list.look_short();
    author.list
}

/// What these answer was worked out by hand.
fn examples(list: &mut List) {
    expect(list.look_window(), 0, [0x0000_007F_0000_007F, 0, 0]);
    expect(list.look_command(), 0, [NONE, NONE, 0]);
    list.look_checksums();
    list.command(PAINT);
    list.data(&[0x84, 0x10]);
    expect(list.pixel_rgb(0), 0, [131 << 16 | 129 << 8 | 131, 0, 0]);
    expect(list.look(LOOK_FRAMEBUFFER), 0, [0x1084_0000_0000_0000, 0, 0]);
    expect(list.look_window(), 0, [0x0000_007F_0000_007F, 0x0001_0000, 0]);
    list.rgb();
    expect(list.look(LOOK_SCREEN), 0, [0x8381_8300_0000_0000, 0, 0]);
    list.look_checksums();
}

/// All 65,536 colours by the checksums of four screens, some by themselves.
fn colours(list: &mut List) {
    for first in QUARTERS {
        list.dma(first);
        list.rgb();
        list.look_checksums();
        for at in [0, 1, 0x1F, 0x20, 0x7E0, 0x7FF, 0x800, 0x2AAA, 0x3FFF] {
            list.pixel_rgb(at);
        }
        for at in [0, 1, 682, 1365] {
            list.look(LOOK_FRAMEBUFFER + at);
        }
        for at in [0, 1, 1023, 2047] {
            list.look(LOOK_SCREEN + at);
        }
    }
    // A colour beyond the last begins with the first again, and so do pixels.
    list.dma(0xFFFF_E000);
    list.look_checksums();
    for at in [0x1FFF, 0x2000, 0x4000, 0xFFFF_FFFF] {
        list.pixel_rgb(at);
    }
    // The screen keeps its colours until it is written again.
    list.dma(0x0000);
    list.look_checksums();
    list.rgb();
    list.look_checksums();
}

/// One byte missing shifts all pixels after it. The next whole frame is right
/// again, and leaves what an undamaged one leaves.
fn damage_heals(list: &mut List) {
    let bytes: Vec<u8> = (0x21..0x39).collect();
    list.dma(0x0000);
    list.window((30, 33), (40, 42));
    list.command(PAINT);
    list.data(&bytes);
    let whole = list.look_checksums();
    let (missing, extra) =
        ([&bytes[..5], &bytes[6..]].concat(), [&bytes[..9], &bytes[8..]].concat());
    for damaged in [&missing, &extra, &bytes[..1].to_vec()] {
        list.command(PAINT);
        list.data(damaged);
        list.look_window();
        list.look_command();
        list.look_checksums();
        list.command(PAINT);
        list.data(&bytes);
        let healed = list.look_checksums();
        expect(healed, 0, whole.words);
        list.look_window();
    }
}

/// A refusal changes nothing; a length beyond all counts as all.
fn lengths(list: &mut List) {
    list.rgb();
    restart(list);
    for length in [0, 1, FRAMEBUFFER_BYTES - 1] {
        expect(list.lent_data(length, 0x77), BAD_MEMORY, [0, 0, 0]);
        expect(list.look_command(), 0, [PAINT.into(), NONE, 0]);
    }
    list.lent_data(FRAMEBUFFER_BYTES, 0x66);
    list.look_command();
    expect(list.lent_data(FRAMEBUFFER_BYTES - 1, 0x77), BAD_MEMORY, [0, 0, 0]);
    list.lent_data(0xFFFF_FFFF, 0x55);
    let before = list.look_checksums();
    for (framebuffer, screen) in [
        (0, 0),
        (0, SCREEN_BYTES),
        (FRAMEBUFFER_BYTES - 1, SCREEN_BYTES),
        (FRAMEBUFFER_BYTES, 0),
        (FRAMEBUFFER_BYTES, FRAMEBUFFER_BYTES),
        (FRAMEBUFFER_BYTES, SCREEN_BYTES - 1),
    ] {
        expect(list.lent_rgb(framebuffer, screen), BAD_MEMORY, [0, 0, 0]);
        expect(list.look_checksums(), 0, before.words);
    }
    list.lent_rgb(FRAMEBUFFER_BYTES, SCREEN_BYTES);
    list.look_checksums();
    list.lent_rgb(0xFFFF_FFFF, usize::MAX);
    // An argument is refused as well, and does not count.
    list.command(ROWS);
    list.data(&[0x00, 0x01, 0x00]);
    list.lent_data(FRAMEBUFFER_BYTES - 1, 0x02);
    list.look_command();
    list.lent_data(FRAMEBUFFER_BYTES, 0x03);
    list.look_window();
}

/// The pen beyond its window and off the glass, and half bytes without data.
fn wild_state(list: &mut List) {
    list.window((10, 12), (20, 22));
    list.command(PAINT);
    for (x, y) in [(9, 19), (12, 22), (13, 5), (5, 23), (200, 21), (11, 200), (0xFFFF, 0xFFFF)] {
        list.put(X, x);
        list.put(Y, y);
        list.data(&[0x9A, 0xBC, 0xDE]);
        list.look_window();
        list.data(&[0xF0]);
        list.look_window();
    }
    list.look_checksums();
    // A half byte waits until pixels are painted.
    list.command(0x00);
    list.put(HALF, 0x0_00EE);
    list.data(&[0x12]);
    list.look_command();
    list.put(CURRENT, PAINT.into());
    list.data(&[0x34]);
    list.look_command();
    list.look_checksums();
}

/// Kinds, looks and places that are not there.
fn nothing(list: &mut List) {
    for kind in [0x0, 0x8, 0x9, 0xA, 0xD, 0x12, 0xFF] {
        list.step(kind, 0x8000, 0x2C);
    }
    for at in [3, 9, 0xFFFF, LOOK_FRAMEBUFFER + 1366, LOOK_SCREEN + 2048, 0xFFFF_FFFF] {
        list.step(LOOK, at, 0);
        list.step(PUT, at.max(9), 0x2A);
    }
    list.look_window();
    list.look_command();
    list.look_checksums();
}

/// What is above the bytes, places and colours is cut off, and what a kind
/// does not use is nothing to it.
fn counts_and_cuts(list: &mut List) {
    list.step(COMMAND, 0xFFFF_FFFF, 0xFFFF_FFFF_FFFF_FF2A);
    for count in [0, 1, 2] {
        list.step(DATA, count, 0x1122_3344_5566_7788);
        list.look_command();
    }
    list.command(PAINT);
    for count in [3, 7, 8, 9, 0xFFFF_FFFF] {
        list.step(DATA, count, 0x1122_3344_5566_7788);
        list.look_window();
        list.look_command();
    }
    list.step(LENT_DATA, FRAMEBUFFER_BYTES as u64, 0xFFFF_FFFF_FFFF_FF99);
    list.look_command();
    for kind in [DMA, RGB, PIXEL_RGB] {
        list.step(kind, 0xFFFF_0123, 0xFFFF_FFFF_FFFF_4567);
    }
    list.step(LOOK, 2, 0xFFFF_FFFF_FFFF_4567);
    for place in X0..=HALF {
        list.put(place, 0xFFFF_FFFF_FFFF_0007 + place);
    }
    list.look_window();
    list.look_command();
    for place in [CURRENT, HALF] {
        list.put(place, 0xFFFF_FFFF_FFFF_FF2C);
    }
    list.look_command();
    list.look_checksums();
}
