//! The port's library.

use crate::memories::Memories;

extern "C" {
    // Each slice is a pointer and then a length.
    fn tg18_run_script(
        ram: *mut u8,
        ram_length: usize,
        sram: *mut u8,
        sram_length: usize,
        gpio: *mut u8,
        gpio_length: usize,
        framebuffer: *mut u8,
        framebuffer_length: usize,
        script: *const u8,
        script_length: usize,
        out: *mut u8,
        out_length: usize,
    ) -> u32;
}

pub fn run_script(memories: &mut Memories, script: &[u8], out: &mut [u8]) -> u32 {
    let [ram, sram, gpio, framebuffer] = &mut memories.0;
    // SAFETY: every pointer is that of a slice of the length beside it, and
    // none of the slices overlaps another.
    unsafe {
        tg18_run_script(
            ram.as_mut_ptr(),
            ram.len(),
            sram.as_mut_ptr(),
            sram.len(),
            gpio.as_mut_ptr(),
            gpio.len(),
            framebuffer.as_mut_ptr(),
            framebuffer.len(),
            script.as_ptr(),
            script.len(),
            out.as_mut_ptr(),
            out.len(),
        )
    }
}
