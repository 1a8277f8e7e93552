//! Sizes that a port's program can hold.

use super::numbers::SMALL_BYTES;

// Naming a smaller array here changes no line of the device: it works as it
// would with its own size, over so many bytes.
pub const FLASH_SIZE: usize = SMALL_BYTES;
// No more RAM than the array: a step outside the array would panic, not pass.
pub const RAM_SIZE: usize = FLASH_SIZE;

/// How much of SRAM there is. Only for the whole bus, as is the next.
pub const SRAM_LENGTH: usize = SMALL_BYTES;

/// The last kind of step that a list may hold.
pub const LAST_KIND: u64 = 0xE6;
