//! The port's library: units, and its functions over their arrays.

use crate::common::random::Random;
use crate::memories::Memories;

/// As `host/tg18.h` has it.
#[repr(C)]
pub struct Unit {
    cells: [u64; 51],
    floats: [f64; 16],
    onsets: [f64; 256],
    frequencies: [f64; 256],
    duties: [f64; 256],
    starts: [f64; 64],
    slots: [u32; 76],
    addresses: [u32; 256],
    values: [u32; 256],
    rtc: [u8; 256],
    page: [u8; 256],
    codes: [u8; 64],
}

pub const UNIT_BYTES: usize = 10_120;
const _: () = assert!(std::mem::size_of::<Unit>() == UNIT_BYTES);

/// A function that is lent the arrays of a unit first.
macro_rules! lent {
    ($($name:ident($($rest:ty),*) $(-> $answer:ty)?;)*) => {
        extern "C" {
            $(fn $name(
                slots: *mut u32, addresses: *mut u32, values: *mut u32, rtc: *mut u8, page: *mut u8,
                onsets: *mut f64, frequencies: *mut f64, duties: *mut f64, starts: *mut f64,
                codes: *mut u8, cells: *mut u64, floats: *mut f64, $(_: $rest,)*
            ) $(-> $answer)?;)*
        }
    };
}

type Ptr = *mut u8;

// Each slice is a pointer and then a length: the four memories, and what else
// a function is lent.
#[rustfmt::skip]
lent! {
    tg18_lent_fresh();
    tg18_lent_continue_script(
        Ptr, usize, Ptr, usize, Ptr, usize, Ptr, usize, *const u8, usize, Ptr, usize
    ) -> u32;
    tg18_lent_save(Ptr, usize, Ptr, usize, Ptr, usize, Ptr, usize, Ptr, usize, *mut u64) -> u32;
    tg18_lent_resume(Ptr, usize, Ptr, usize, Ptr, usize, Ptr, usize, *const u8, usize) -> u32;
}

/// SAFETY: every pointer is that of an array or of a slice of the length
/// beside it, and no two of those that are written overlap.
macro_rules! call {
    ($name:ident, $unit:expr, $($rest:expr),*) => {{
        let unit = $unit;
        unsafe {
            $name(
                unit.slots.as_mut_ptr(), unit.addresses.as_mut_ptr(), unit.values.as_mut_ptr(),
                unit.rtc.as_mut_ptr(), unit.page.as_mut_ptr(), unit.onsets.as_mut_ptr(),
                unit.frequencies.as_mut_ptr(), unit.duties.as_mut_ptr(), unit.starts.as_mut_ptr(),
                unit.codes.as_mut_ptr(), unit.cells.as_mut_ptr(), unit.floats.as_mut_ptr(),
                $($rest),*
            )
        }
    }};
}

macro_rules! call_over {
    ($name:ident, $unit:expr, $memories:expr, $($rest:expr),*) => {{
        let [ram, sram, gpio, framebuffer] = $memories;
        call!(
            $name, $unit, ram.as_mut_ptr(), ram.len(), sram.as_mut_ptr(), sram.len(),
            gpio.as_mut_ptr(), gpio.len(), framebuffer.as_mut_ptr(), framebuffer.len(), $($rest),*
        )
    }};
}

/// The memories as slices, so that one can be lent in part.
pub type Lent<'a> = [&'a mut [u8]; 4];

pub fn lent(memories: &mut Memories) -> Lent<'_> {
    memories.0.each_mut().map(Vec::as_mut_slice)
}

impl Unit {
    /// Any bytes are a unit.
    pub fn any(random: &mut Random) -> Box<Unit> {
        let mut bytes = [0; UNIT_BYTES];
        for eight in bytes.chunks_exact_mut(8) {
            eight.copy_from_slice(&random.next().to_le_bytes());
        }
        // SAFETY: as many bytes, and any of them are numbers.
        Box::new(unsafe { std::mem::transmute::<[u8; UNIT_BYTES], Unit>(bytes) })
    }

    pub fn bytes(&self) -> &[u8; UNIT_BYTES] {
        // SAFETY: as many bytes, and no padding among them.
        unsafe { &*(self as *const Unit).cast() }
    }

    pub fn fresh(&mut self) {
        call!(tg18_lent_fresh, self,)
    }

    pub fn continue_script(&mut self, memories: Lent, script: &[u8], out: &mut [u8]) -> u32 {
        call_over!(
            tg18_lent_continue_script,
            self,
            memories,
            script.as_ptr(),
            script.len(),
            out.as_mut_ptr(),
            out.len()
        )
    }

    /// What it answers, and how many bytes it says that it wrote.
    pub fn save(&mut self, memories: Lent, out: &mut [u8]) -> (u32, u64) {
        let mut written = u64::MAX;
        let answer =
            call_over!(tg18_lent_save, self, memories, out.as_mut_ptr(), out.len(), &mut written);
        (answer, written)
    }

    pub fn resume(&mut self, memories: Lent, saved: &[u8]) -> u32 {
        call_over!(tg18_lent_resume, self, memories, saved.as_ptr(), saved.len())
    }
}
