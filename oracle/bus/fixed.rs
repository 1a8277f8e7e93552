//! The fixed list for the whole bus: the paper's examples, then each rule and
//! each refusal at least once, in little text.

use super::cases::*;
use super::clock_cases::*;
use super::clocks::{rtc_read, rtc_write};
use super::device_cases::*;
use super::limit_cases::*;
use super::list::List;
use super::map::OTHER_WORD;
use super::panel::{command, dma};
use super::status_cases::*;
use super::time_cases::*;
use crate::common::device::timer_word;
use crate::common::generator::expect;
use crate::common::numbers::*;

/// The family that a case belongs to, and its steps.
type Case = (&'static str, fn(&mut List));

const CASES: [Case; 26] = [
    ("examples", examples),
    ("memory", memories),
    ("memory", strays),
    ("memory", peeks_and_blocks),
    ("words", merged_words),
    ("words", every_own_word),
    ("others", room),
    ("status", masks),
    ("status", acknowledging),
    ("timers", six_timers),
    ("timers", timer_controls),
    ("sound", tones),
    ("sound", full_store),
    ("flash", programs),
    ("flash", erases),
    ("flash", answers_of_flash),
    ("panel", panel_controls),
    ("panel", pictures),
    ("rtc", rtc_registers),
    ("clock", day),
    ("adc", adc_controls),
    ("spi2", ports_and_power),
    ("keys", keys_and_lines),
    ("next", next_events),
    ("limits", limits_of_time),
    ("limits", wiping),
];

pub fn fixed_list() -> List {
    let mut list = List::new();
    for (part, case) in CASES {
        list.begin(part);
        list.wipe();
        case(&mut list);
    }
    list.begin("ending");
    list.look_state();
    look_stored(&mut list);
    list.look_rest();
    list
}

/// What these answer was worked out by hand.
pub fn examples(list: &mut List) {
    for (timer, reload) in [(0, 0x0000), (1, 0xFFFF), (2, 0xFC18)] {
        list.write(timer_word(timer, RELOAD_AT), reload);
        list.write(timer_word(timer, CONTROL_AT), 0x6000);
    }
    expect(list.advance(0.5), 0, [0, 0, 0]);
    for (timer, counter) in [(0, 0x8D80), (1, 0xFFFF), (2, 0xFC18)] {
        expect(list.read(timer_word(timer, COUNTER_AT)), 0, [counter, 0, 0]);
        expect(list.read(timer_word(timer, CONTROL_AT)), 0, [0xE000, 0, 0]);
    }
    for (size, left) in [(1, 0), (4, 0x2000)] {
        dma(list, FLASH_BASE);
        list.pass(0.1);
        expect(list.read(LCD_STATUS), 0, [0x2040, 0, 0]);
        list.write_sized(size, LCD_STATUS, 0x40);
        expect(list.read(LCD_STATUS), 0, [left, 0, 0]);
    }
    expect(list.counters(), 0, [2, 0, 0]);
    list.write(OTHER_WORD + 2, 0x1122_3344);
    expect(list.read(OTHER_WORD), 0, [0x3344_0000, 0, 0]);
    list.write(OTHER_WORD, 0);
    list.write_sized(2, OTHER_WORD + 3, 0xBEEF);
    expect(list.read(OTHER_WORD), 0, [0xEF00_0000, 0, 0]);
    identities(list);
    command(list, PAINT, &[0x84, 0x10]);
    expect(list.pixel(0), 0, [131 << 16 | 129 << 8 | 131, 0, 0]);
    list.write(RTC_HOURS, 25);
    expect(list.read(RTC_HOURS), 0, [1, 0, 0]);
    staging(list);
    expect(list.advance(LAST_TIME.next_up()), BAD_TIME, [0, 0, 0]);
    expect(list.advance(-0.0), BAD_TIME, [0, 0, 0]);
    expect(list.advance(LAST_TIME), 0, [0, 0, 0]);
}

fn identities(list: &mut List) {
    let transactions: [(&[u8], &[u64]); 2] = [
        (&[0x9F, 0, 0, 0, 0], &[0xFF, 0xEF, 0x40, 0x17, 0xFF]),
        (&[0x90, 0, 0, 0, 0, 0, 0], &[0xFF, 0xFF, 0xFF, 0xFF, 0xEF, 0x16, 0xEF]),
    ];
    for (bytes, answers) in transactions {
        list.write(SPIFC_SELECT, FLASH_SELECTED);
        for (&byte, &answer) in bytes.iter().zip(answers) {
            list.write(SPIFC_SEND, byte.into());
            expect(list.read(SPIFC_ANSWER), 0, [answer, 0, 0]);
        }
        list.write(SPIFC_SELECT, 0);
    }
}

/// Nothing of the base shows before 0x15 is written.
fn staging(list: &mut List) {
    let now = list.now();
    for (at, data) in [0x01, 0x00, 0x00, 0x00, 0x00, 0x80].into_iter().enumerate() {
        if at == 5 {
            expect(rtc_read(list, 0x35), 0, [0, 0, 0]);
        }
        rtc_write(list, 0x10 + at as u32, data);
    }
    for (register, byte) in [(0x30, 1), (0x31, 0), (0x35, 0x80)] {
        expect(rtc_read(list, register), 0, [byte, 0, 0]);
    }
    list.advance(now);
}
