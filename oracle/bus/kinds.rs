//! The kinds of steps for the whole bus: sixteen times a script's, and those
//! that only lists have.

use crate::common::numbers as script;

/// Kinds of reads and writes have the size in their last digit.
pub const READ: u64 = 16 * script::READ as u64;
pub const LAST_READ: u64 = READ + 15;
pub const WRITE: u64 = 16 * script::WRITE as u64;
pub const LAST_WRITE: u64 = WRITE + 15;
pub const ADVANCE: u64 = 16 * script::ADVANCE as u64;
pub const NEXT: u64 = 16 * script::NEXT as u64;
pub const PENDING: u64 = 16 * script::PENDING as u64;
pub const TURBO: u64 = 16 * script::TURBO as u64;
pub const LIVE: u64 = 16 * script::KEY as u64;
pub const HOLD: u64 = 16 * script::HOLD as u64;
pub const TAKE: u64 = 16 * script::SOUND as u64;
pub const COUNTERS: u64 = 16 * script::COUNTERS as u64;
pub const PIXEL: u64 = 16 * script::COLOUR as u64;
pub const WIPE: u64 = 16 * script::WIPE as u64;
pub const PRESS: u64 = 0xD0;
pub const PEEK8: u64 = 0xE0;
pub const PEEK32: u64 = 0xE1;
pub const POKE: u64 = 0xE2;
pub const KEYS: u64 = 0xE3;
pub const WANTED: u64 = 0xE4;
pub const BLOCK: u64 = 0xE5;
pub const DIGEST: u64 = 0xE6;
