//! The Rust's own sizes, at which scripts are compared.

use super::numbers::{FLASH_BYTES, RAM_BYTES, SRAM_BYTES};

pub const FLASH_SIZE: usize = FLASH_BYTES;
pub const RAM_SIZE: usize = RAM_BYTES;
pub const SRAM_LENGTH: usize = SRAM_BYTES;

/// The last kind of step that a list may hold: what follows a press, no script
/// has.
pub const LAST_KIND: u64 = 0xD0;
