//! The fixed list for the time devices: the paper's examples, then each rule
//! and each edge at least once, in little text, then random steps.

use crate::clocks::*;
use crate::common::device::timer_word;
use crate::common::edges::*;
use crate::common::generator::{expect, take_turns, Authorship};
use crate::common::numbers::*;
use crate::common::step::Answer;
use crate::families::Author;
use crate::list::List;
use crate::steps::ADVANCE;
use crate::timers::*;

/// With the ending there are at most 2,500.
const STEPS: usize = 2_450;

const TURNS: [&str; 7] = ["timers", "sound", "rtc", "day", "adc", "limits", "wild"];

pub fn fixed_list() -> List {
    let mut author = Author::new(0);
    let list = &mut author.list;
    list.begin("examples");
    examples(list);
    list.begin("timers");
    timer_edges(list);
    timer_controls(list);
    vsyncs(list);
    list.begin("sound");
    tones(list);
    full_store(&mut author);
    let list = &mut author.list;
    list.begin("rtc");
    rtc_registers(list);
    rtc_counts(list);
    list.begin("day");
    day_fields(list);
    day_passes(list);
    list.begin("adc");
    adc_controls(list);
    list.begin("limits");
    times(list);
    game_times(list);
    turbos(list);
    list.begin("wild");
    wild_numbers(list);
    wild_counts(list);
    restart(list);
    take_turns(&mut author, &TURNS, STEPS);
    author.list.end();
    author.list
}

/// Time goes back to its beginning.
fn rewind(list: &mut List) {
    list.put_number(0x6, 0.0);
    list.put_number(0x7, 0.0);
}

/// The same, and what follows time.
fn restart(list: &mut List) {
    rewind(list);
    list.turbo(1.0);
    list.clock(0);
    list.put(0xF, 0);
    list.put(0x16, 0);
}

fn rtc_command(list: &mut List, register: u32, data: u32, command: u32) {
    list.write(RTC_ADDRESS, register);
    list.write(RTC_DATA, data);
    list.write(RTC_COMMAND, command);
}

fn rtc_read(list: &mut List, register: u32) -> Answer {
    list.write(RTC_ADDRESS, register);
    list.write(RTC_COMMAND, 2);
    list.read(RTC_OUT)
}

/// What these answer was worked out by hand.
fn examples(list: &mut List) {
    for (timer, reload) in [(0, 0x0000), (1, 0xFFFF), (2, 0xFC18)] {
        list.write(timer_word(timer, RELOAD_AT), reload);
        list.write(timer_word(timer, CONTROL_AT), 0x6000);
    }
    expect(list.advance(0.5), 0, [0, 0, 0]);
    // 6,000,000 counts are 91 periods of 65,536 and 0x8D80 more.
    for (timer, periods, counter) in [(0, 91, 0x8D80), (1, 6_000_000, 0xFFFF), (2, 6_000, 0xFC18)] {
        expect(list.look(timer), 0, [0, periods, 1]);
        expect(list.read(timer_word(timer as usize, COUNTER_AT)), 0, [counter, 0, 0]);
        expect(list.read(timer_word(timer as usize, CONTROL_AT)), 0, [0xE000, 0, 0]);
    }
    list.write(RTC_IRQ_BASE + 8, 25);
    expect(list.read(RTC_IRQ_BASE + 8), 0, [1, 0, 0]);
    for (at, data) in [0x01, 0x00, 0x00, 0x00, 0x00, 0x80].into_iter().enumerate() {
        if at == 5 {
            expect(list.look(0x8), 0, [0, 0, 0]);
        }
        rtc_command(list, 0x10 + at as u32, data, 1);
    }
    expect(list.look(0x8), 0, [140_737_488_355_329, 0.5f64.to_bits(), 0]);
    expect(list.advance(LAST_TIME.next_up()), BAD_TIME, [0, 0, 0]);
    expect(list.advance(-0.0), BAD_TIME, [0, 0, 0]);
    expect(list.advance(LAST_TIME), 0, [0, 0, 0]);
    expect(list.advance(LAST_TIME.next_up()), BAD_TIME, [0, 0, 0]);
    expect(list.look(0x6), 0, [LAST_TIME.to_bits(), LAST_TIME.to_bits(), 1.0f64.to_bits()]);
    expect(list.look(0xA), 0, [125_829_120, 0x2000, 0]);
    expect(list.take(), NO_EVENT, [0, 0, 0]);
}

/// Each reload with some clock and rate, about the ends of two periods.
fn timer_edges(list: &mut List) {
    let reloads = RELOADS.into_iter().chain([0xABCD_FC18]);
    for (at, (reload, clock)) in reloads.zip(CLOCKS.into_iter().rev()).enumerate() {
        let timer = at % 6;
        rewind(list);
        list.clock(clock);
        list.write(timer_word(timer, RELOAD_AT), reload);
        list.write(timer_word(timer, CONTROL_AT), 0);
        let slow = (at + 1) % 2;
        list.write(timer_word(timer, CONTROL_AT), 0x6000 | slow as u32);
        let rate = list.device.sysclk() / [2.0, 256.0][slow];
        let period = list.device.timer_period(timer) as f64;
        for periods in [1.0, 3.0] {
            for places in -1..=1 {
                list.advance(off(periods * period / rate, places));
                list.read(timer_word(timer, COUNTER_AT));
                list.look(timer as u64);
            }
            list.read(timer_word(timer, CONTROL_AT));
            list.write(timer_word(timer, CONTROL_AT), 0xE000 | slow as u32);
        }
    }
}

/// The 16 combinations, each after the one before it, and a counter that
/// shows what was stored while the timer stands.
fn timer_controls(list: &mut List) {
    restart(list);
    list.write(timer_word(3, RELOAD_AT), 0xFFFE);
    list.write(timer_word(3, COUNTER_AT), 0x1234_5678);
    for combination in 0..16 {
        list.write(timer_word(3, CONTROL_AT), control_bits(combination));
        list.read(timer_word(3, CONTROL_AT));
        let now = list.device.now;
        list.advance(now + 0.3);
        list.read(timer_word(3, CONTROL_AT));
        list.read(timer_word(3, COUNTER_AT));
        if combination % 4 == 3 {
            list.look(3);
        }
    }
    list.write(timer_word(3, CONTROL_AT), 0xFFFF_FFFF);
    list.read(timer_word(3, CONTROL_AT));
}

/// About the ends of sixtieths of a second.
fn vsyncs(list: &mut List) {
    restart(list);
    // The third is an end only one place later than its quotient.
    for sixtieths in [1.0, 3.0, 123.0, 132.0, 1_000_003.0] {
        for places in -1..=1 {
            list.advance(off(sixtieths / 60.0, places));
            list.look(0xA);
        }
    }
}

/// Duties below, at and above their ends, and tones that are no change.
fn tones(list: &mut List) {
    restart(list);
    // An event takes the time and not game time, so they are to differ.
    list.turbo(3.0);
    list.advance(0.75);
    let [control, reload, compare] =
        [CONTROL_AT, RELOAD_AT, COMPARE_AT].map(|w| timer_word(SOUND_TIMER, w));
    list.write(control, 0x2000);
    for period in [1, 19, 20, 21, 1000, 65_536] {
        list.write(reload, 65_536 - period);
        for high in [1, period / 20, period / 20 + 1, period - period / 20, period, 65_536] {
            list.write(compare, 65_536 - high);
        }
        list.look(0x7);
    }
    list.write(compare, 0xABCD_8000);
    list.look(0x7);
    for same in [0x0000_0000, 0xFFFF_0000] {
        list.write(reload, same);
    }
    list.clock(1);
    list.look(0x7);
    list.write(compare, 0x8000);
    for value in [0x2001, 0x6001, 0xE001, 0x2000, 0x0000, 0x0001, 0x4000] {
        list.write(control, value);
        list.look(0x7);
    }
    list.clock(0);
}

/// With all places taken, a write that would add an event changes nothing.
fn full_store(author: &mut Author) {
    author.fill_store();
    let list = &mut author.list;
    let [control, reload, compare] =
        [CONTROL_AT, RELOAD_AT, COMPARE_AT].map(|w| timer_word(SOUND_TIMER, w));
    let (first, period) = (list.device.reg(reload), list.device.timer_period(SOUND_TIMER) as u32);
    // An interrupt of timer 4 waits.
    let now = list.device.now;
    list.advance(now + 0.1);
    for (word, value) in [(reload, first ^ 1), (compare, 65_536 - period / 2), (control, 0x8000)] {
        expect(list.write(word, value), SOUND_FULL, [0, 0, 0]);
        list.read(word);
        list.look(SOUND_TIMER as u64);
    }
    expect(list.read(control), 0, [0xE000, 0, 0]);
    list.clock(12_345);
    expect(list.write(reload, first), SOUND_FULL, [0, 0, 0]);
    list.clock(0);
    // The first two give the tone that there is, the third is no tone's.
    let other = timer_word(0, CONTROL_AT);
    for (word, value) in [(reload, first | 0x5555_0000), (control, 0xE000), (other, 0)] {
        expect(list.write(word, value), 0, [0, 0, 0]);
        list.read(word);
        list.look(SOUND_TIMER as u64);
    }
    expect(list.read(control), 0, [0x6000, 0, 0]);
    list.take();
    expect(list.write(control, 0), 0, [0, 0, 0]);
    expect(list.write(control, 0x2000), SOUND_FULL, [0, 0, 0]);
    list.look(0x7);
    list.look(SOUND_TIMER as u64);
    while list.take().refusal == 0 {}
}

/// Written and read back: the registers with a meaning, those beside them,
/// and one of each thirty-two.
fn rtc_registers(list: &mut List) {
    restart(list);
    let known = [0x00, 0x01, 0x16, 0x26, 0x2F, 0x36, 0x41, 0x50, 0xFF];
    for register in known.into_iter().chain((0x20..0x100).step_by(32)) {
        rtc_command(list, register, 0xFF - register, 1);
        rtc_read(list, register);
    }
    for register in 0x20..=0x25 {
        rtc_command(list, register, 0xA0 + register, 1);
    }
    for enable in [0, 1, 2, 4, 6, 8, 0xF9, 0xFF] {
        rtc_command(list, 0x40, enable, 1);
        list.look(0xB);
    }
    // Both bits write; none does nothing; higher bits and bytes are ignored.
    for command in [3, 0, 0xFFFF_FFFC, 0xFFFF_FFFD, 0xFFFF_FFFE] {
        rtc_command(list, 0xABCD_EF80, 0x1234_5600 + (command & 0xFF), command);
        list.read(RTC_OUT);
    }
    for word in [RTC_READY, RTC_OUT] {
        list.write(word, 0xFFFF_FFFF);
        list.read(word);
    }
}

/// Staging out of order, and the count over time at four turbos.
fn rtc_counts(list: &mut List) {
    for (register, data) in [(0x15, 0xFF), (0x10, 0xFE), (0x14, 0xFF), (0x15, 0x7F), (0x30, 9)] {
        rtc_command(list, register, data, 1);
        list.look(0x8);
    }
    for turbo in [SLOWEST, 1.0, 1000.5, FASTEST] {
        list.turbo(turbo);
        let edge = list.device.now + 3.0 / 32768.0 / turbo;
        for time in [edge.next_down(), edge, edge.next_up(), edge + 100.0] {
            list.advance(time);
            list.look(0xC);
        }
        rtc_read(list, 0x30);
        // The base takes game time, which is no longer the time.
        rtc_command(list, 0x15, 0x7F, 1);
        list.look(0x8);
    }
    for register in 0x31..=0x35 {
        rtc_read(list, register);
    }
}

fn day_fields(list: &mut List) {
    restart(list);
    for word in [0x00, 0x04, 0x08] {
        for value in FIELDS {
            list.write(RTC_IRQ_BASE + word, value);
            list.read(RTC_IRQ_BASE + word);
        }
        list.look(0x9);
    }
}

/// Across a second, a minute, an hour and midnight; ticks, and their status.
fn day_passes(list: &mut List) {
    list.write(RTC_IRQ_ENABLE, 0xFFFF_FFFF);
    list.read(RTC_IRQ_ENABLE);
    for (turbo, to) in [(1.0, 0.999), (FASTEST, 1.0), (SLOWEST, 1.0), (1000.5, 60.0)] {
        list.turbo(turbo);
        for (word, value) in [(0x08, 23), (0x04, 59), (0x00, 59)] {
            list.write(RTC_IRQ_BASE + word, value);
        }
        let edge = list.device.now + to / turbo;
        for time in [edge.next_down(), edge, edge.next_up(), edge + 86_399.0 / turbo] {
            list.advance(time);
            list.look(0xC);
            list.read(RTC_IRQ_BASE + 0x08);
            list.read(RTC_IRQ_STATUS);
            list.write(RTC_IRQ_STATUS, if turbo == 1.0 { 0xFFFF_FFFD } else { 2 });
            list.read(RTC_IRQ_STATUS);
        }
        list.look(0x9);
    }
}

/// Each combination over a control whose conversion is done, and some over
/// one whose conversion still runs.
fn adc_controls(list: &mut List) {
    restart(list);
    for combination in 0..32 {
        list.write(ADC_CONTROL, 0x8000);
        list.write(ADC_CONTROL, 0x4040);
        let now = list.device.now;
        if combination % 4 != 1 {
            list.advance(now);
        }
        list.write(ADC_CONTROL, adc_bits(combination));
        list.read(ADC_CONTROL);
        if combination % 3 == 0 {
            list.look(0xA);
            list.advance(now + 1.0);
            list.read(ADC_CONTROL);
        }
    }
    list.write(ADC_RESULT, 0xFFFF_FFFF);
    list.read(ADC_RESULT);
    list.write(ADC_CONTROL, 0);
    list.write(ADC_CONTROL, 0xFFFF_FFFF);
    list.read(ADC_CONTROL);
    let now = list.device.now;
    list.advance(now);
    list.read(ADC_CONTROL);
    list.read(ADC_RESULT);
}

fn times(list: &mut List) {
    restart(list);
    for time in TIME_EDGES {
        list.step(ADVANCE, 0, time);
        list.look(0x6);
    }
    restart(list);
    for (places, refusal) in [(0, 0), (-1, BAD_TIME), (0, 0), (1, 0), (0, BAD_TIME)] {
        expect(list.advance(off(1.5, places)), refusal, [0, 0, 0]);
    }
    list.look(0x6);
}

/// The most that game time reaches, by itself and from a little above 0. A
/// sum that is rounded to the limit is not above it.
fn game_times(list: &mut List) {
    let half_place = f64::from_bits((1023 - 22) << 52);
    for (game, refusal) in [
        (0.0, 0),
        (half_place, 0),
        (half_place.next_up(), BAD_TIME),
        (1.0, BAD_TIME),
        (LAST_GAME_TIME, BAD_TIME),
        (-1.0, 0),
    ] {
        restart(list);
        list.turbo(FASTEST);
        list.put_number(0x7, game);
        expect(list.advance(LAST_TIME), refusal, [0, 0, 0]);
        list.look(0x6);
        list.look(0x9);
    }
    // Before game time 0 nothing ticks.
    restart(list);
    list.put_number(0x7, -100.0);
    list.advance(1.0);
    for at in [0x6, 0x9, 0xC] {
        list.look(at);
    }
}

/// And game times that the order of rounding decides.
fn turbos(list: &mut List) {
    restart(list);
    for (at, turbo) in TURBOS.into_iter().cycle().take(12).enumerate() {
        list.turbo(turbo);
        list.advance(1.1 + 3.7 * at as f64);
        list.look(0x6);
    }
    for turbo in TURBO_EDGES {
        list.turbo(turbo);
        list.look(0x6);
    }
}

/// Each number as game time and as the start of a timer that runs.
fn wild_numbers(list: &mut List) {
    restart(list);
    list.put(0xB, 0x7FFF_FFFF_FFFF_FFFF);
    list.write(timer_word(0, RELOAD_AT), 0xFC18);
    list.write(timer_word(0, CONTROL_AT), 0x6000);
    for number in WILD_NUMBERS {
        list.put_number(0x7, number);
        list.look(0xC);
        list.put_number(0x0, number);
        list.read(timer_word(0, COUNTER_AT));
    }
    // No place takes a NaN.
    for at in 0x0..=0xF {
        list.put(at, 0x7FF8_0000_0000_0000);
    }
    list.look(0x6);
    list.look(0x0);
    // But a sum may become one, and then stays.
    list.put_number(0x6, f64::NEG_INFINITY);
    list.put_number(0x8, 0.0);
    list.advance(0.0);
    for at in [0x6, 0x9, 0xC] {
        list.look(at);
    }
    equal_tone(list);
}

/// A state that is equal to the tone, with other bits.
fn equal_tone(list: &mut List) {
    list.put_number(0x9, -0.0);
    list.put_number(0xA, 0.5);
    list.write(timer_word(SOUND_TIMER, CONTROL_AT), 0);
    list.look(0x7);
}

/// Counts above what time brings, so that nothing new is seen.
fn wild_counts(list: &mut List) {
    for count in WILD_COUNTS.into_iter().rev().step_by(2) {
        rewind(list);
        list.put_number(0x0, -1.0);
        for at in [0x10, 0xF, 0x16, 0xD] {
            list.put(at, count);
        }
        list.put(0x20, count);
        list.advance(100.0);
        for at in [0x0, 0x9, 0xA] {
            list.look(at);
        }
    }
    for kind in [0x0, 0x4, 0x5, 0x7, 0x8, 0xD, 0xFF] {
        list.step(kind, TIMER_BASE.into(), 0x6000);
    }
    list.look(0xD);
    list.put(0x17, 1);
}
