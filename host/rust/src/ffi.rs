//! The functions of tg18.h, and every use of `unsafe`: what C asks of its caller is seen to here, and the rest of the
//! crate needs none.
//!
//! Of the caller it is asked that units and memories are there, that nothing that is lent to a call overlaps, that
//! nothing else touches it during the call, and that no two calls with one unit or over the same memories run at once.
//! References say all of that. One that may change is the only one there is; and as neither [`Unit`] nor [`Slices`] is
//! `Sync`, no reference to one goes to another thread, so that two looks do not run at once either. The library keeps
//! no pointer, and calls nothing back but the work of [`scrubbed`]. Below this is "the rule".

use std::ffi::c_void;
use std::marker::PhantomData;
use std::slice;

use crate::unit::{Event, Unit};

/// `struct tg18_memories`.
#[repr(C)]
pub struct Pointers {
    ram: *mut u8,
    ram_len: usize,
    sram: *mut u8,
    sram_len: usize,
    gpio: *mut u8,
    gpio_len: usize,
    framebuffer: *mut u8,
    framebuffer_len: usize,
}

/// Four slices that are lent for `'a`, or own. They are kept as C wants them, so that a call has nothing to copy.
pub struct Slices<'a> {
    at: Pointers,
    own: bool,
    lent: PhantomData<&'a mut [u8]>,
}

// SAFETY: it stands for four `&mut [u8]` or four boxes, which may go to another thread, and nothing else knows the
// pointers. It is not `Sync`, as the rule asks.
unsafe impl Send for Slices<'_> {}

#[rustfmt::skip]
extern "C" {
    fn tg18_unit_bytes() -> usize;
    fn tg18_fresh(unit: *mut Unit);
    fn tg18_wipe(unit: *mut Unit, memories: *const Pointers) -> u32;
    fn tg18_read(unit: *mut Unit, memories: *const Pointers, address: u32, size: u32, value: *mut u32) -> u32;
    fn tg18_write(unit: *mut Unit, memories: *const Pointers, address: u32, size: u32, value: u32) -> u32;
    fn tg18_advance(unit: *mut Unit, memories: *const Pointers, now: f64) -> u32;
    fn tg18_next_event(unit: *const Unit, memories: *const Pointers, time: *mut f64) -> u32;
    fn tg18_pending_irq(unit: *const Unit) -> u32;
    fn tg18_irq_wanted(unit: *const Unit) -> u32;
    fn tg18_turbo(unit: *mut Unit, factor: f64) -> u32;
    fn tg18_live_key(unit: *mut Unit, key: u32, down: u32) -> u32;
    fn tg18_hold_until(unit: *mut Unit, key: u32, until: f64) -> u32;
    fn tg18_press(unit: *mut Unit, key: u32, at: f64) -> u32;
    fn tg18_keys_held(unit: *const Unit) -> u32;
    fn tg18_take_events(unit: *mut Unit, records: *mut Event, count: usize) -> usize;
    fn tg18_counters(unit: *const Unit, frames: *mut u64, flash_writes: *mut u64, off: *mut u32);
    fn tg18_screen(memories: *const Pointers, rgb: *mut u8, bytes: usize) -> u32;
    fn tg18_peek8(unit: *const Unit, memories: *const Pointers, address: u32, value: *mut u8) -> u32;
    fn tg18_peek32(unit: *const Unit, memories: *const Pointers, address: u32, value: *mut u32) -> u32;
    fn tg18_read_block(unit: *const Unit, memories: *const Pointers, address: u32, bytes: *mut u8, count: usize,
                       whole: *mut u32) -> u32;
    fn tg18_poke(unit: *mut Unit, memories: *const Pointers, address: u32, bytes: *const u8, count: usize) -> u32;
    fn tg18_tod(unit: *const Unit) -> i64;
    fn tg18_ticks(unit: *const Unit) -> i64;
    fn tg18_alarm_ticks(unit: *const Unit, ticks: *mut i64) -> u32;
    fn tg18_continue_script(unit: *mut Unit, memories: *const Pointers, script: *const u8, script_len: usize,
                            out: *mut u8, out_len: usize) -> u32;
    fn tg18_save(unit: *const Unit, memories: *const Pointers, out: *mut u8, out_len: usize,
                 written: *mut u64) -> u32;
    fn tg18_resume(unit: *mut Unit, memories: *const Pointers, saved: *const u8, saved_len: usize) -> u32;
    fn tg18_run_script(ram: *mut u8, ram_len: usize, sram: *mut u8, sram_len: usize, gpio: *mut u8, gpio_len: usize,
                       framebuffer: *mut u8, framebuffer_len: usize, script: *const u8, script_len: usize,
                       out: *mut u8, out_len: usize) -> u32;
    fn tg18_scrubbed(work: extern "C" fn(*mut c_void), argument: *mut c_void) -> u32;
}

/// One of the four memories: how it is looked at, and how it is changed.
macro_rules! memory {
    ($name:ident, $name_mut:ident, $length:ident) => {
        #[inline]
        pub fn $name(&self) -> &[u8] {
            // SAFETY: pointer and length are those of a slice that is there for as long as `self` is, and while
            // `self` is borrowed to look at, nothing changes it.
            unsafe { slice::from_raw_parts(self.at.$name, self.at.$length) }
        }

        #[inline]
        pub fn $name_mut(&mut self) -> &mut [u8] {
            // SAFETY: as above; and `self` is borrowed to change, so that no other reference to these bytes is there.
            unsafe { slice::from_raw_parts_mut(self.at.$name, self.at.$length) }
        }
    };
}

impl<'a> Slices<'a> {
    pub fn lent([ram, sram, gpio, framebuffer]: [&'a mut [u8]; 4]) -> Slices<'a> {
        let at = Pointers {
            ram_len: ram.len(),
            ram: ram.as_mut_ptr(),
            sram_len: sram.len(),
            sram: sram.as_mut_ptr(),
            gpio_len: gpio.len(),
            gpio: gpio.as_mut_ptr(),
            framebuffer_len: framebuffer.len(),
            framebuffer: framebuffer.as_mut_ptr(),
        };
        Slices { at, own: false, lent: PhantomData }
    }

    pub fn owned(boxes: [Box<[u8]>; 4]) -> Slices<'a> {
        let mut slices = Slices::lent(boxes.map(Box::leak));
        slices.own = true;
        slices
    }

    memory!(ram, ram_mut, ram_len);
    memory!(sram, sram_mut, sram_len);
    memory!(gpio, gpio_mut, gpio_len);
    memory!(framebuffer, framebuffer_mut, framebuffer_len);
}

impl Drop for Slices<'_> {
    fn drop(&mut self) {
        if !self.own {
            return;
        }
        let boxes: [*mut [u8]; 4] = [self.ram_mut(), self.sram_mut(), self.gpio_mut(), self.framebuffer_mut()];
        for memory in boxes {
            // SAFETY: it is what `Box::leak` gave in `owned`, with the same length, and nothing uses it after this.
            drop(unsafe { Box::from_raw(memory) });
        }
    }
}

pub fn unit_bytes() -> usize {
    // SAFETY: it asks for nothing.
    unsafe { tg18_unit_bytes() }
}

pub fn fresh(unit: &mut Unit) {
    // SAFETY: the rule.
    unsafe { tg18_fresh(unit) }
}

pub fn wipe(unit: &mut Unit, memories: &mut Slices) -> u32 {
    // SAFETY: the rule.
    unsafe { tg18_wipe(unit, &memories.at) }
}

#[inline]
pub fn read(unit: &mut Unit, memories: &Slices, address: u32, size: u32) -> (u32, u32) {
    let mut value = 0;
    // SAFETY: the rule; the value is a local. A read changes no memory.
    let number = unsafe { tg18_read(unit, &memories.at, address, size, &mut value) };
    (number, value)
}

#[inline]
pub fn write(unit: &mut Unit, memories: &mut Slices, address: u32, size: u32, value: u32) -> u32 {
    // SAFETY: the rule.
    unsafe { tg18_write(unit, &memories.at, address, size, value) }
}

pub fn advance(unit: &mut Unit, memories: &mut Slices, now: f64) -> u32 {
    // SAFETY: the rule.
    unsafe { tg18_advance(unit, &memories.at, now) }
}

pub fn next_event(unit: &Unit, memories: &Slices) -> (u32, f64) {
    let mut time = 0.0;
    // SAFETY: the rule; the time is a local. It only looks at the others.
    let number = unsafe { tg18_next_event(unit, &memories.at, &mut time) };
    (number, time)
}

pub fn pending_irq(unit: &Unit) -> u32 {
    // SAFETY: the rule; it only looks.
    unsafe { tg18_pending_irq(unit) }
}

pub fn irq_wanted(unit: &Unit) -> u32 {
    // SAFETY: the rule; it only looks.
    unsafe { tg18_irq_wanted(unit) }
}

pub fn turbo(unit: &mut Unit, factor: f64) -> u32 {
    // SAFETY: the rule.
    unsafe { tg18_turbo(unit, factor) }
}

pub fn live_key(unit: &mut Unit, key: u32, down: u32) -> u32 {
    // SAFETY: the rule.
    unsafe { tg18_live_key(unit, key, down) }
}

pub fn hold_until(unit: &mut Unit, key: u32, until: f64) -> u32 {
    // SAFETY: the rule.
    unsafe { tg18_hold_until(unit, key, until) }
}

pub fn press(unit: &mut Unit, key: u32, at: f64) -> u32 {
    // SAFETY: the rule.
    unsafe { tg18_press(unit, key, at) }
}

pub fn keys_held(unit: &Unit) -> u32 {
    // SAFETY: the rule; it only looks.
    unsafe { tg18_keys_held(unit) }
}

pub fn take_events(unit: &mut Unit, records: &mut [Event]) -> usize {
    // SAFETY: the rule; `Event` is laid out as C's, and there are as many as is said.
    unsafe { tg18_take_events(unit, records.as_mut_ptr(), records.len()) }
}

pub fn counters(unit: &Unit) -> (u64, u64, u32) {
    let (mut frames, mut flash_writes, mut off) = (0, 0, 0);
    // SAFETY: the rule; it only looks at the unit, and the three are locals.
    unsafe { tg18_counters(unit, &mut frames, &mut flash_writes, &mut off) }
    (frames, flash_writes, off)
}

pub fn screen(memories: &Slices, rgb: &mut [u8]) -> u32 {
    // SAFETY: the rule; it only looks at the memories, and there are as many bytes as is said.
    unsafe { tg18_screen(&memories.at, rgb.as_mut_ptr(), rgb.len()) }
}

pub fn peek8(unit: &Unit, memories: &Slices, address: u32) -> (u32, u8) {
    let mut value = 0;
    // SAFETY: the rule; the value is a local. It only looks at the others.
    let number = unsafe { tg18_peek8(unit, &memories.at, address, &mut value) };
    (number, value)
}

pub fn peek32(unit: &Unit, memories: &Slices, address: u32) -> (u32, u32) {
    let mut value = 0;
    // SAFETY: the rule; the value is a local. It only looks at the others.
    let number = unsafe { tg18_peek32(unit, &memories.at, address, &mut value) };
    (number, value)
}

pub fn read_block(unit: &Unit, memories: &Slices, address: u32, bytes: &mut [u8]) -> (u32, u32) {
    let mut whole = 0;
    // SAFETY: the rule; it only looks at unit and memories, and there are as many bytes as is said.
    let number = unsafe { tg18_read_block(unit, &memories.at, address, bytes.as_mut_ptr(), bytes.len(), &mut whole) };
    (number, whole)
}

pub fn poke(unit: &mut Unit, memories: &mut Slices, address: u32, bytes: &[u8]) -> u32 {
    // SAFETY: the rule; there are as many bytes as is said, and it only looks at them.
    unsafe { tg18_poke(unit, &memories.at, address, bytes.as_ptr(), bytes.len()) }
}

pub fn tod(unit: &Unit) -> i64 {
    // SAFETY: the rule; it only looks.
    unsafe { tg18_tod(unit) }
}

pub fn ticks(unit: &Unit) -> i64 {
    // SAFETY: the rule; it only looks.
    unsafe { tg18_ticks(unit) }
}

pub fn alarm_ticks(unit: &Unit) -> (u32, i64) {
    let mut ticks = 0;
    // SAFETY: the rule; it only looks at the unit, and the ticks are a local.
    let on = unsafe { tg18_alarm_ticks(unit, &mut ticks) };
    (on, ticks)
}

pub fn continue_script(unit: &mut Unit, memories: &mut Slices, script: &[u8], out: &mut [u8]) -> u32 {
    let (script_at, out_at) = (script.as_ptr(), out.as_mut_ptr());
    // SAFETY: the rule; script and out are slices of these lengths, and it only looks at the script.
    unsafe { tg18_continue_script(unit, &memories.at, script_at, script.len(), out_at, out.len()) }
}

pub fn save(unit: &Unit, memories: &Slices, out: &mut [u8]) -> (u32, u64) {
    let mut written = 0;
    // SAFETY: the rule; it only looks at unit and memories, there are as many bytes as is said, and the count is a
    // local.
    let number = unsafe { tg18_save(unit, &memories.at, out.as_mut_ptr(), out.len(), &mut written) };
    (number, written)
}

pub fn resume(unit: &mut Unit, memories: &mut Slices, saved: &[u8]) -> u32 {
    // SAFETY: the rule; there are as many bytes as is said, and it only looks at them.
    unsafe { tg18_resume(unit, &memories.at, saved.as_ptr(), saved.len()) }
}

#[rustfmt::skip]
pub fn run_script(memories: &mut Slices, script: &[u8], out: &mut [u8]) -> u32 {
    let m = &memories.at;
    // SAFETY: the rule; script and out are slices of these lengths, and it only looks at the script.
    unsafe {
        tg18_run_script(m.ram, m.ram_len, m.sram, m.sram_len, m.gpio, m.gpio_len, m.framebuffer, m.framebuffer_len,
                        script.as_ptr(), script.len(), out.as_mut_ptr(), out.len())
    }
}

extern "C" fn call<Work: FnMut()>(argument: *mut c_void) {
    // SAFETY: `scrubbed` passes a reference to a `Work`, which nothing else uses meanwhile.
    let work = unsafe { &mut *argument.cast::<Work>() };
    work();
}

/// The work is called once or not at all, on this thread. It does not unwind: that would end the process.
pub fn scrubbed<Work: FnMut()>(work: &mut Work) -> u32 {
    let argument: *mut Work = work;
    // SAFETY: `call` takes what it is passed for a `Work`, and returns.
    unsafe { tg18_scrubbed(call::<Work>, argument.cast()) }
}
