//! Scripts from the fresh state, and any work without a trace.

use std::panic::{catch_unwind, resume_unwind, AssertUnwindSafe};

use crate::{ffi, Memories, Refusal};

/// Presses that a script has at most.
pub const MOST_PRESSES: usize = 4_096;
/// Steps that a script has at most.
pub const MOST_STEPS: usize = 4_096;
/// Bytes of a press: `u8` key, `f64` time.
pub const PRESS_BYTES: usize = 9;
/// Bytes of a step: `u8` kind, `u8` size, two unused, `u32` address, `u64` value.
pub const STEP_BYTES: usize = 16;
/// Bytes of an answer: `u8` refusal, and three `u64`.
pub const ANSWER_BYTES: usize = 25;
/// Bytes of stack that [`scrubbed`] has for its work and all that this calls.
pub const SCRUBBED_BYTES: usize = 262_144;

/// Bytes of a script with so many presses and steps.
///
/// ```
/// assert_eq!(tg18::script_bytes(1, 2), 49);
/// ```
pub const fn script_bytes(presses: usize, steps: usize) -> usize {
    8 + PRESS_BYTES * presses + STEP_BYTES * steps
}

/// Bytes of its answers.
///
/// ```
/// assert_eq!(tg18::out_bytes(1, 2), 79);
/// ```
pub const fn out_bytes(presses: usize, steps: usize) -> usize {
    4 + ANSWER_BYTES * (presses + steps)
}

/// Runs a script, as tg18.h lays it out, from the fresh state, on a unit that is gone afterwards.
///
/// [`Refusal::BadMemory`], [`Refusal::BadScript`] or [`Refusal::OutTooShort`] refuse it as a whole. What a single step
/// is refused for stands in `out`.
///
/// ```
/// use tg18::{out_bytes, run_script, script_bytes, Memories};
///
/// // No press, and one step: a read (1) of size 4 at 0xC0090010, which always reads 1.
/// let mut script = vec![0; script_bytes(0, 1)];
/// script[4] = 1;
/// script[8..10].copy_from_slice(&[1, 4]);
/// script[12..16].copy_from_slice(&0xC009_0010u32.to_le_bytes());
/// let mut out = vec![0; out_bytes(0, 1)];
/// run_script(&mut Memories::new(), &script, &mut out)?;
/// assert_eq!(out[..13], [1, 0, 0, 0, 0, 1, 0, 0, 0, 0, 0, 0, 0]);
/// # Ok::<(), tg18::Refusal>(())
/// ```
pub fn run_script(memories: &mut Memories, script: &[u8], out: &mut [u8]) -> Result<(), Refusal> {
    Refusal::answered(ffi::run_script(memories.slices_mut(), script, out))
}

/// Does some work on a stack of its own, [`SCRUBBED_BYTES`] long, which is cleared and given back afterwards, as are
/// the registers. So no copy is left of what calls in it have moved, but in units, memories and where the work itself
/// stored some. host/README.md says what that reaches.
///
/// Signals to this thread wait until the work is done. A panic in it goes on here, once the stack is cleared; what it
/// has printed and put on the heap is its own. [`Refusal::NoStack`] where there is no memory for the stack: then
/// nothing was done.
///
/// ```
/// use tg18::{scrubbed, Memories, Unit};
///
/// let (mut unit, mut memories) = (Unit::fresh(), Memories::new());
/// scrubbed(|| unit.write(&mut memories, 0x2000_0000, 4, 0x5EC2_E700))??;
/// assert_eq!(memories.ram()[3], 0x5E);
/// # Ok::<(), tg18::Refusal>(())
/// ```
pub fn scrubbed<Answer>(work: impl FnOnce() -> Answer) -> Result<Answer, Refusal> {
    let (mut work, mut outcome) = (Some(work), None);
    let number = ffi::scrubbed(&mut || {
        // Work that unwinds is given on below, by `resume_unwind`, so that whoever sees what it left is told.
        outcome = work.take().map(|work| catch_unwind(AssertUnwindSafe(work)));
    });
    match outcome {
        Some(Ok(answer)) => Ok(answer),
        Some(Err(panic)) => resume_unwind(panic),
        None => Err(Refusal::from_number(number).unwrap_or(Refusal::NoStack)),
    }
}
