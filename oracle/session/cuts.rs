//! The families that cut where something is half done or full.

use crate::bus::flash::with_address;
use crate::bus::map::{takes_room, OTHER_WORD, TONE_WORDS};
use crate::bus::timers::fill_events;
use crate::common::device::timer_word;
use crate::common::edges::{fraction, CLOCKS, RELOADS, TURBOS};
use crate::common::numbers::*;
use crate::pairs::Draft;
use crate::FLASH_SIZE;

/// In turn; those with many places to cut at come more often.
pub const CUTS: [(&str, fn(&mut Draft)); 18] = [
    ("transactions", transactions),
    ("unselected", unselected),
    ("pixels", pixels),
    ("waiting presses", waiting_presses),
    ("transactions", transactions),
    ("conversions", conversions),
    ("running timers", running_timers),
    ("pixels", pixels),
    ("transactions", transactions),
    ("full tables", full_tables),
    ("power and turbo", power_and_turbo),
    ("held keys", held_keys),
    ("transactions", transactions),
    ("unselected", unselected),
    ("pixels", pixels),
    ("running timers", running_timers),
    ("full tables", full_tables),
    ("waiting presses", waiting_presses),
];

/// Every command that does or answers something, and two that do nothing.
#[rustfmt::skip]
const COMMANDS: [u8; 19] = [
    0x02, 0x03, 0x04, 0x05, 0x06, 0x0B, 0x15, 0x20, 0x35, 0x4B, 0x52, 0x60, 0x90, 0x9F, 0xAB, 0xC7,
    0xD8, 0x00, 0x77,
];

fn select(draft: &mut Draft, on: bool) {
    draft.author.list.write(SPIFC_SELECT, if on { FLASH_SELECTED } else { 0 });
}

fn send(draft: &mut Draft, bytes: &[u8], read_one_in: usize) {
    for &byte in bytes {
        draft.author.list.write(SPIFC_SEND, byte.into());
        if draft.author.random.one_in(read_one_in) {
            draft.author.list.read(SPIFC_ANSWER);
        }
    }
}

/// A transaction's bytes: all of its header mostly, and data of a few lengths.
fn transaction(draft: &mut Draft) -> Vec<u8> {
    let author = &mut draft.author;
    let command = if author.random.one_in(2) {
        author.random.pick(&[0x02, 0x02, 0x03, 0x0B, 0x20, 0x52])
    } else {
        author.random.pick(&COMMANDS)
    };
    let address = author.flash_address();
    let (few, page) = (author.random.between(0, 9), author.random.between(250, 262));
    let more = author.random.between(263, 540);
    let data = author.random.pick(&[few, few, few, page, more]);
    let data = author.data(data);
    // So that a program shows: the page is erased by ordinary writes.
    let page = FLASH_BASE + (address % FLASH_SIZE as u32 & !0xFF);
    for at in 0..author.random.pick(&[0, 4, 64]) {
        author.list.write(page + 4 * at, u32::MAX);
    }
    with_address(command, address, &data)
}

/// Where a transaction is cut: after each byte of its header, or in its data.
fn place(draft: &mut Draft, length: usize) -> usize {
    let random = &mut draft.author.random;
    let (header, any, last) = (random.below(6), random.below(length + 1), length - 1);
    random.pick(&[header, header, any, last, length]).min(length)
}

fn look_at_flash(draft: &mut Draft, bytes: &[u8]) {
    let list = &mut draft.author.list;
    list.counters();
    if let [_, high, middle, low, ..] = *bytes {
        let address = u32::from_be_bytes([0, high, middle, low]) % FLASH_SIZE as u32;
        for at in [0, 4, 8] {
            list.read(FLASH_BASE + (address & !0xFF) + (address + at) % 0x100);
        }
    }
    draft.author.frame(&[0x05, 0]);
}

fn transactions(draft: &mut Draft) {
    for _ in 0..draft.author.random.pick(&[1, 1, 2]) {
        if !draft.author.random.one_in(4) {
            draft.author.frame(&[0x06]);
        }
        let bytes = transaction(draft);
        select(draft, true);
        let mut places: Vec<usize> = Vec::new();
        for _ in 0..draft.author.random.pick(&[1, 1, 1, 2, 3]) {
            let at = place(draft, bytes.len());
            places.push(at);
        }
        places.sort_unstable();
        let mut from = 0;
        for at in places {
            send(draft, &bytes[from..at], 12);
            draft.cut();
            from = at;
        }
        draft.author.list.read(SPIFC_ANSWER);
        send(draft, &bytes[from..], 3);
        match draft.author.random.below(6) {
            // A second select, which begins nothing.
            0 => select(draft, true),
            1 => draft.maybe_cut(2),
            _ => {}
        }
        select(draft, false);
        draft.maybe_cut(4);
        look_at_flash(draft, &bytes);
    }
}

/// Bytes while it is not selected, and a transaction that is over: its bytes
/// are still there.
fn unselected(draft: &mut Draft) {
    if draft.author.random.one_in(2) {
        draft.author.frame(&[0x06]);
    }
    let bytes = transaction(draft);
    if draft.author.random.one_in(2) {
        draft.author.frame(&bytes[..bytes.len().min(6)]);
    }
    let at = place(draft, bytes.len());
    send(draft, &bytes[..at], 6);
    draft.cut();
    draft.author.list.read(SPIFC_ANSWER);
    let more = draft.author.random.between(0, 6).min(bytes.len() - at);
    send(draft, &bytes[at..at + more], 1);
    let on = draft.author.random.one_in(2);
    select(draft, on);
    draft.maybe_cut(3);
    send(draft, &[0x05, 0], 1);
    select(draft, false);
    look_at_flash(draft, &bytes);
}

fn panel_byte(draft: &mut Draft, byte: u8) {
    draft.author.list.write(LCD_DATA, byte.into());
    draft.author.list.write(LCD_CONTROL, SEND_BYTE);
}

/// A command and its data one byte at a time, with a cut before one of them.
fn panel_run(draft: &mut Draft, command: u8, data: &[u8], cut_at: Option<usize>) {
    draft.author.send_command(command);
    for (at, &byte) in data.iter().enumerate() {
        if cut_at == Some(at) {
            draft.cut();
        }
        panel_byte(draft, byte);
    }
    if cut_at == Some(data.len()) {
        draft.cut();
    }
}

/// Windows, with a cut after each argument, and pixels, with half of one held.
fn pixels(draft: &mut Draft) {
    let random = &mut draft.author.random;
    let (first, wide) = (random.below(140) as u16, random.below(9) as u16);
    let far = random.pick(&[first, first, 120, 0xFFFE]);
    let ends = [far.to_be_bytes(), far.wrapping_add(wide).to_be_bytes()].concat();
    let rows = [[0, first as u8 & 0x7F], [0, (first as u8 & 0x7F) + wide as u8]].concat();
    let (columns_at, rows_at) = (random.between(0, 4), random.between(0, 4));
    let which = random.below(4);
    let (columns, other) = (random.pick(&[COLUMNS, COLUMNS, 0x36]), random.pick(&[ROWS, ROWS, 0]));
    panel_run(draft, columns, &ends, (which == 0).then_some(columns_at));
    panel_run(draft, other, &rows, (which == 1).then_some(rows_at));
    let count = draft.author.random.between(1, 60);
    let data = draft.author.data(count);
    let at = draft.author.random.below(count + 1);
    panel_run(draft, PAINT, &data, (which != 3).then_some(at));
    if which == 3 {
        draft.cut();
    }
    let more = draft.author.random.between(0, 9);
    for byte in draft.author.data(more) {
        panel_byte(draft, byte);
    }
    draft.author.list.counters();
    for n in 0..4 {
        let row = u32::from(first) & 0x7F;
        draft.author.list.pixel((row + n % 2) * LCD_W as u32 + u32::from(far) + n / 2);
        draft.author.pixel();
    }
}

/// Some that wait, some that are on and some that have expired; then as many
/// more as there is room for, and one.
fn waiting_presses(draft: &mut Draft) {
    let count = draft.author.random.pick(&[1, 3, 20, 63, 64, 66]);
    for _ in 0..count {
        let author = &mut draft.author;
        let key = author.random.below(3) as u64;
        let most = author.random.pick(&[0.1, 0.4, 2.0]);
        let time = author.list.now() + fraction(&mut author.random) * most;
        author.list.press(key, time);
    }
    let to = draft.author.random.pick(&[0.0, 0.1, 0.2, 0.3]);
    draft.author.list.pass(to);
    draft.author.list.read(KEY_LINES);
    draft.cut();
    if draft.author.random.one_in(2) {
        for n in 0..draft.author.random.pick(&[2, 20, 66]) {
            let time = draft.author.list.now() + 0.01 * n as f64;
            draft.author.list.press(n as u64 % 3, time);
        }
    }
    for _ in 0..draft.author.random.between(1, 6) {
        let author = &mut draft.author;
        let now = author.list.now();
        let edges = author.list.system().key_script.iter().flat_map(|&(at, _)| [at, at + KEY_HOLD]);
        let ahead: Vec<f64> = edges.filter(|&edge| edge >= now).collect();
        let edge = if ahead.is_empty() { now + 0.05 } else { author.random.pick(&ahead) };
        let time = author.about(edge);
        author.go(time);
        author.list.read(KEY_LINES);
        author.list.next();
        draft.maybe_cut(8);
    }
}

/// Between the start of a conversion and the advance that ends it.
fn conversions(draft: &mut Draft) {
    let control = draft.author.random.pick(&[0x4000, 0x4040, 0x40C0, 0xC040]);
    draft.author.list.write(ADC_CONTROL, 0);
    draft.author.list.write(ADC_CONTROL, control);
    draft.author.list.next();
    draft.cut();
    draft.author.list.next();
    draft.author.list.lines();
    if draft.author.random.one_in(3) {
        draft.author.list.write(ADC_CONTROL, 0);
    }
    draft.author.pass();
    draft.author.list.read(ADC_CONTROL);
    draft.author.list.read(ADC_RESULT);
    draft.author.list.lines();
    draft.maybe_cut(3);
}

/// Running, some pending; before the cut a period's length changes, so that
/// its count is another one than was seen. Then about the ends of periods.
fn running_timers(draft: &mut Draft) {
    for n in 0..TIMER_COUNT {
        let author = &mut draft.author;
        if author.random.one_in(4) {
            continue;
        }
        let reload = author.value(&RELOADS);
        author.list.write(timer_word(n, RELOAD_AT), reload);
        let control = author.random.pick(&[0x2000, 0x2001, 0x6000, 0x6000, 0x6001]);
        author.list.write(timer_word(n, CONTROL_AT), control);
        author.list.pass(0.000_3);
    }
    draft.author.pass();
    for n in 0..TIMER_COUNT {
        let author = &mut draft.author;
        match author.random.below(5) {
            0 => {
                let reload = author.value(&RELOADS);
                author.list.write(timer_word(n, RELOAD_AT), reload);
            }
            1 => {
                let control = author.list.system().reg(timer_word(n, CONTROL_AT));
                author.list.write(timer_word(n, CONTROL_AT), control ^ 1);
            }
            2 => {
                let control = author.list.system().reg(timer_word(n, CONTROL_AT));
                author.list.write(timer_word(n, CONTROL_AT), control | 0x8000);
            }
            _ => {}
        }
    }
    if draft.author.random.one_in(3) {
        let clock = draft.author.value(&CLOCKS);
        draft.author.list.write(SYSCLK_VAR, clock);
    }
    draft.cut();
    draft.author.list.next();
    if draft.author.random.one_in(2) {
        let now = draft.author.list.now();
        draft.author.list.advance(now);
        draft.author.list.lines();
    }
    for _ in 0..draft.author.random.between(1, 8) {
        let n = draft.author.random.below(TIMER_COUNT);
        draft.author.timer_passes(n);
        draft.author.list.next();
        draft.author.list.read(timer_word(n, COUNTER_AT));
        if draft.author.random.one_in(3) {
            let control = draft.author.list.system().reg(timer_word(n, CONTROL_AT));
            draft.author.list.write(timer_word(n, CONTROL_AT), control | 0x8000);
        }
        draft.maybe_cut(8);
    }
}

/// Another word in any of the three ranges.
fn any_other(draft: &mut Draft) -> u32 {
    loop {
        let bits = draft.author.bits();
        let random = &mut draft.author.random;
        let word = match random.below(4) {
            0 => REGISTERS_C + bits % (REGISTERS_C_END - REGISTERS_C),
            1 => REGISTERS_D + bits % (REGISTERS_D_END - REGISTERS_D),
            2 => REGISTERS_F + bits % (REGISTERS_F_END - REGISTERS_F),
            _ => OTHER_WORD + bits % 0x400,
        } & !3;
        if takes_room(word) {
            return word;
        }
    }
}

/// Words, presses and events up to the last place, with a ring of events that
/// does not begin at its first place.
fn full_tables(draft: &mut Draft) {
    let which = draft.author.random.pick(&[1, 2, 4, 1, 2, 7, 5]);
    if which & 1 != 0 {
        let short = draft.author.random.pick(&[0, 0, 1]);
        while draft.author.list.taken() < REGISTER_PLACES - short {
            let (word, value) = (any_other(draft), draft.author.bits());
            draft.author.list.write(word, value);
        }
    }
    if which & 2 != 0 {
        let first = draft.author.random.below(60_000) as u32;
        fill_events(&mut draft.author.list, first);
        for _ in 0..draft.author.random.pick(&[0, 1, 100]) {
            draft.author.list.take();
        }
        draft.author.list.pass(0.01);
        fill_events(&mut draft.author.list, first ^ 0x1000);
    }
    if which & 4 != 0 {
        for n in 0..KEY_PLACES as u64 {
            let time = fraction(&mut draft.author.random) * 10.0;
            let now = draft.author.list.now();
            draft.author.list.press(n % 3, now + time);
        }
    }
    draft.cut();
    for _ in 0..4 {
        let (word, value) = (any_other(draft), draft.author.bits());
        draft.author.list.write(word, value);
        draft.author.list.read(word);
        let words = crate::bus::map::others(draft.author.list.system());
        if !words.is_empty() {
            let word = draft.author.random.pick(&words);
            draft.author.list.read(word);
            draft.author.list.write(word, 0);
        }
        let (word, value) = (any_other(draft), draft.author.bits());
        draft.author.list.write(word, value);
        let (word, value) = (draft.author.random.pick(&TONE_WORDS), draft.author.bits());
        draft.author.list.write(word, value);
        draft.author.list.take();
        let now = draft.author.list.now();
        draft.author.list.press(1, now);
        draft.maybe_cut(6);
    }
}

fn power_and_turbo(draft: &mut Draft) {
    let turbo = draft.author.random.pick(&TURBOS);
    draft.author.list.turbo(turbo);
    let tick = draft.author.bits();
    draft.author.list.write(RTC_IRQ_ENABLE, RTC_TICK_BIT);
    draft.author.list.write(RTC_HOURS, tick % 24);
    draft.author.pass();
    if !draft.author.random.one_in(4) {
        draft.author.list.write(POWER_REG, 1);
    }
    draft.author.list.counters();
    draft.cut();
    draft.author.list.counters();
    for _ in 0..draft.author.random.between(1, 5) {
        draft.author.pass();
        for word in [RTC_SECONDS, RTC_MINUTES, RTC_HOURS, RTC_IRQ_STATUS] {
            draft.author.list.read(word);
        }
        draft.author.list.next();
        draft.maybe_cut(6);
    }
    draft.author.list.counters();
}

/// Keys that are down or held, seen on their lines or not yet.
fn held_keys(draft: &mut Draft) {
    for key in 0..3 {
        let author = &mut draft.author;
        let until = author.list.now() + fraction(&mut author.random);
        match author.random.below(3) {
            0 => author.list.live(key, 1),
            1 => author.list.hold(key, until),
            _ => author.list.press(key, until / 2.0),
        };
    }
    if draft.author.random.one_in(2) {
        draft.author.list.pass(0.01);
    }
    draft.author.list.read(KEY_LINES);
    draft.cut();
    let lines = draft.author.bits();
    match draft.author.random.below(3) {
        0 => {
            draft.author.list.write(KEY_LINES, lines);
        }
        1 => {
            let key = draft.author.random.below(3) as u64;
            draft.author.list.live(key, 0);
        }
        _ => {}
    }
    for _ in 0..4 {
        let seconds = fraction(&mut draft.author.random) * 0.4;
        draft.author.list.pass(seconds);
        draft.author.list.read(KEY_LINES);
        draft.author.list.next();
    }
}
