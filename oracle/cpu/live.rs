//! The port's live entries, as `host/tg18.h` has them.

use crate::memories::Memories;

#[repr(C)]
struct Slice {
    bytes: *mut u8,
    length: usize,
}

/// Where the four memories are, and their lengths.
#[repr(C)]
pub struct Lent([Slice; 4]);

impl Lent {
    /// The memories must outlive this and keep their places.
    pub fn new(memories: &mut Memories) -> Lent {
        let slice =
            |memory: &mut Vec<u8>| Slice { bytes: memory.as_mut_ptr(), length: memory.len() };
        Lent(memories.0.each_mut().map(slice))
    }
}

#[repr(C)]
#[derive(Clone, Copy, Default)]
pub struct Record {
    pub time: f64,
    pub frequency: f64,
    pub duty: f64,
}

/// A unit, whose inside is the port's own.
pub type Unit = u64;

extern "C" {
    pub fn tg18_unit_bytes() -> usize;
    pub fn tg18_fresh(unit: *mut Unit);
    pub fn tg18_read(unit: *mut Unit, lent: &Lent, address: u32, size: u32, value: &mut u32)
        -> u32;
    pub fn tg18_write(unit: *mut Unit, lent: &Lent, address: u32, size: u32, value: u32) -> u32;
    pub fn tg18_advance(unit: *mut Unit, lent: &Lent, now: f64) -> u32;
    pub fn tg18_next_event(unit: *const Unit, lent: &Lent, time: &mut f64) -> u32;
    pub fn tg18_pending_irq(unit: *const Unit) -> u32;
    pub fn tg18_irq_wanted(unit: *const Unit) -> u32;
    pub fn tg18_turbo(unit: *mut Unit, factor: f64) -> u32;
    pub fn tg18_live_key(unit: *mut Unit, key: u32, down: u32) -> u32;
    pub fn tg18_hold_until(unit: *mut Unit, key: u32, until: f64) -> u32;
    pub fn tg18_press(unit: *mut Unit, key: u32, at: f64) -> u32;
    pub fn tg18_keys_held(unit: *const Unit) -> u32;
    pub fn tg18_take_events(unit: *mut Unit, records: *mut Record, count: usize) -> usize;
    pub fn tg18_counters(unit: *const Unit, frames: &mut u64, writes: &mut u64, off: &mut u32);
    pub fn tg18_screen(lent: &Lent, rgb: *mut u8, bytes: usize) -> u32;
    pub fn tg18_peek32(unit: *const Unit, lent: &Lent, address: u32, value: &mut u32) -> u32;
    pub fn tg18_peek8(unit: *const Unit, lent: &Lent, address: u32, value: &mut u8) -> u32;
    pub fn tg18_read_block(
        unit: *const Unit,
        lent: &Lent,
        address: u32,
        bytes: *mut u8,
        count: usize,
        whole: &mut u32,
    ) -> u32;
    pub fn tg18_poke(
        unit: *mut Unit,
        lent: &Lent,
        address: u32,
        bytes: *const u8,
        count: usize,
    ) -> u32;
    pub fn tg18_tod(unit: *const Unit) -> i64;
    pub fn tg18_ticks(unit: *const Unit) -> i64;
    pub fn tg18_alarm_ticks(unit: *const Unit, ticks: &mut i64) -> u32;
}
