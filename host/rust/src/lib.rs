//! The tg18 register bus, proved, for hosts in Rust: [`Unit`] and its [`Memories`], over the C library of `host/`.
//!
//! A unit is the state of timers, panel, clocks, ADC, flash, interrupts and keys; the four memories stand beside it.
//! Every call takes any arguments and ends. It is refused by a number of 01 (the paper of requirements), a
//! [`Refusal`], and has then changed nothing. What the library's functions do is proved; this crate, which passes
//! references on to them, is tested.
//!
//! ```
//! use tg18::{Key, Memories, Unit};
//!
//! let (mut unit, mut memories) = (Unit::fresh(), Memories::new());
//! unit.write(&mut memories, 0xC002_0008, 4, 0xFC18)?; // timer 0: reload
//! unit.write(&mut memories, 0xC002_0000, 4, 0x6000)?; // and control: run, and interrupt
//! unit.live_key(Key::B, true)?;
//! unit.advance(&mut memories, 0.5)?;
//! assert_eq!(unit.pending_irq(), 8);
//! assert_eq!(unit.keys_held(), [false, true, false]);
//! # Ok::<(), tg18::Refusal>(())
//! ```
//!
//! Units and memories may go from thread to thread, and as many as one likes may be at work at once: they share
//! nothing. They are not `Sync`, as the library wants no two calls with one unit, or over the same memories, at once,
//! and looks ask for shared references only:
//!
//! ```compile_fail
//! fn shared<T: Sync>() {}
//! shared::<tg18::Unit>();
//! ```
//!
//! ```compile_fail
//! fn shared<T: Sync>() {}
//! shared::<tg18::Memories>();
//! ```

#![deny(missing_docs)]
#![deny(unsafe_code)]
#![forbid(unsafe_op_in_unsafe_fn)]

#[allow(unsafe_code)]
mod ffi;
mod memories;
mod refusal;
mod scripts;
mod unit;

pub use memories::{
    Memories, FRAMEBUFFER_BYTES, GPIO_BYTES, RAM_BASE, RAM_BYTES, SCREEN_BYTES, SCREEN_HEIGHT, SCREEN_WIDTH,
    SRAM_BASE, SRAM_BYTES,
};
pub use refusal::{NoRefusal, Refusal};
pub use scripts::{
    out_bytes, run_script, script_bytes, scrubbed, ANSWER_BYTES, MOST_PRESSES, MOST_STEPS, PRESS_BYTES,
    SCRUBBED_BYTES, STEP_BYTES,
};
pub use unit::{Counters, Event, Key, Unit, SAVE_MOST, UNIT_BYTES};
