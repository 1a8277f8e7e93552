//! Whether bytes are a session: 02's conditions, read apart from the port.

use crate::bus::map::{place, takes_room, Place};
use crate::common::limits::{bad_time, bad_turbo};
use crate::common::numbers::*;
use crate::layout::LEAST;
use crate::memories::LENGTHS;

/// Bytes that are read one after the other. What is not as it must be is
/// noted, and reading goes on; past the end zeros are read.
struct Reader<'a> {
    bytes: &'a [u8],
    at: usize,
    good: bool,
}

impl Reader<'_> {
    fn must(&mut self, stands: bool) {
        self.good &= stands;
    }

    fn number(&mut self, bytes: usize) -> u64 {
        let mut eight = [0; 8];
        match self.bytes.get(self.at..self.at + bytes) {
            Some(here) => eight[..bytes].copy_from_slice(here),
            None => self.good = false,
        }
        self.at += bytes;
        u64::from_le_bytes(eight)
    }

    fn up_to(&mut self, bytes: usize, most: u64) -> u64 {
        let number = self.number(bytes);
        self.must(number <= most);
        number
    }

    /// A section that is always of one length.
    fn count(&mut self, count: usize) {
        let there = self.number(4);
        self.must(there == count as u64);
    }

    fn flag(&mut self) -> bool {
        self.up_to(1, 1) == 1
    }

    fn flags(&mut self, count: usize) {
        for _ in 0..count {
            self.flag();
        }
    }

    fn double(&mut self) -> f64 {
        f64::from_bits(self.number(8))
    }

    fn time(&mut self) -> f64 {
        let time = self.double();
        self.must(!bad_time(time));
        time
    }

    fn game_time(&mut self) -> f64 {
        let time = self.double();
        self.must(time.is_finite() && time.is_sign_positive() && time <= LAST_GAME_TIME);
        time
    }

    fn finite(&mut self) {
        let number = self.double();
        self.must(number.is_finite());
    }

    /// The rows of a table, unless it is over-full.
    fn rows(&mut self, most: usize) -> usize {
        self.up_to(4, most as u64).min(most as u64) as usize
    }
}

/// Own words are 76, and each is any number.
const OWN_BYTES: usize = 4 * 76;

pub fn good(bytes: &[u8]) -> bool {
    if bytes.len() < LEAST {
        return false;
    }
    let mut r = Reader { bytes, at: 0, good: true };
    r.count(TIMER_COUNT);
    let starts: Vec<f64> = (0..TIMER_COUNT).map(|_| r.time()).collect();
    r.flags(TIMER_COUNT);
    words(&mut r);
    r.count(2);
    r.flags(2);
    panel(&mut r);
    let now = clocks(&mut r, &starts);
    r.count(2);
    r.finite();
    r.finite();
    flash(&mut r);
    keys(&mut r, now);
    for _ in 0..r.rows(SOUND_PLACES) {
        r.time();
        r.finite();
        r.finite();
    }
    for length in LENGTHS {
        r.count(length);
        r.at += length;
    }
    r.good && r.at == bytes.len()
}

fn words(r: &mut Reader) {
    let rows = r.rows(REGISTER_PLACES);
    r.at += OWN_BYTES;
    let mut last = None;
    for _ in 0..rows {
        let (word, value) = (r.number(4) as u32, r.number(4));
        r.must(value != 0 && last < Some(word));
        r.must(word % 4 == 0 && place(word) == Place::Register && takes_room(word));
        last = Some(word);
    }
}

fn panel(r: &mut Reader) {
    r.count(45);
    r.up_to(4, 256);
    let arguments: Vec<u64> = (0..4).map(|_| r.number(1)).collect();
    let come = r.up_to(1, 4) as usize;
    r.must(arguments.iter().skip(come).all(|&argument| argument == 0));
    // The window's ends, and the position.
    for _ in 0..6 {
        r.up_to(4, 0xFFFF);
    }
    r.up_to(4, 256);
    r.number(8);
}

/// Now is what other sections are held against.
fn clocks(r: &mut Reader, starts: &[f64]) -> f64 {
    r.count(328);
    let (now, game, turbo) = (r.time(), r.game_time(), r.double());
    r.must(!bad_turbo(turbo) && starts.iter().all(|&start| start <= now));
    for _ in 0..2 {
        let set = r.game_time();
        r.must(set <= game);
    }
    let ticks = r.number(8);
    r.up_to(4, 86_399);
    let syncs = r.number(8);
    r.must(ticks == game as u64 && syncs == (now * VSYNC_HZ) as u64);
    r.up_to(8, (1 << 48) - 1);
    r.up_to(4, 0xFF);
    r.at += 256;
    now
}

/// A transaction that selects and bytes can leave.
fn flash(r: &mut Reader) {
    r.count(276);
    r.flags(2);
    r.number(8);
    r.number(1);
    let header: Vec<u64> = (0..4).map(|_| r.number(1)).collect();
    let come = r.number(4) as usize;
    let long = r.flag();
    // Bytes that have not come are 0. The number of bytes stops behind the
    // array's length; from 261 on the mark is set, and it stays.
    r.must(header.iter().skip(come).all(|&byte| byte == 0));
    r.must(come <= FLASH_BYTES + 4);
    r.must(if long { come >= 5 } else { come <= 260 });
    for at in 0..256 {
        let met = long || (at + 256 - header[3] as usize) % 256 + 4 < come;
        let byte = r.number(1);
        r.must(met || byte == 0xFF);
    }
}

fn keys(r: &mut Reader, now: f64) {
    r.count(28);
    r.flags(3);
    let lines = r.number(1);
    r.must(lines & 0x1F == 0);
    for _ in 0..3 {
        r.time();
    }
    for _ in 0..r.rows(KEY_PLACES) {
        r.up_to(1, 2);
        let time = r.time();
        r.must(time + KEY_HOLD > now);
    }
}
