//! The Rust device under the name of the port's function, as a library: to try
//! the comparison itself, with the device as it is and with altered copies.

#![crate_type = "staticlib"]

#[path = "../bus/mod.rs"]
mod bus;
// The comparison uses all of these, this library only some.
#[allow(dead_code)]
mod bytes;
#[path = "../common/mod.rs"]
mod common;
#[allow(dead_code)]
mod memories;
mod run;

use std::slice::{from_raw_parts, from_raw_parts_mut};

use common::device::*;
use common::full::*;
use memories::Memories;

/// # Safety
///
/// Each pointer is that of a slice of the length behind it, and no two of
/// those that are written overlap another.
#[no_mangle]
pub unsafe extern "C" fn tg18_run_script(
    ram: *mut u8,
    ram_length: usize,
    sram: *mut u8,
    sram_length: usize,
    gpio: *mut u8,
    gpio_length: usize,
    framebuffer: *mut u8,
    framebuffer_length: usize,
    script: *const u8,
    script_length: usize,
    out: *mut u8,
    out_length: usize,
) -> u32 {
    let mut lent = [
        from_raw_parts_mut(ram, ram_length),
        from_raw_parts_mut(sram, sram_length),
        from_raw_parts_mut(gpio, gpio_length),
        from_raw_parts_mut(framebuffer, framebuffer_length),
    ];
    let mut memories = Memories(lent.each_ref().map(|slice| slice.to_vec()));
    let (script, out) =
        (from_raw_parts(script, script_length), from_raw_parts_mut(out, out_length));
    let returned = run::run_script(&mut memories, script, out);
    for (slice, memory) in lent.iter_mut().zip(&memories.0) {
        slice.copy_from_slice(memory);
    }
    returned
}
