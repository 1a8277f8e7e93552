//! Numbers at the edges of what the time devices do.

use super::numbers::{FASTEST, LAST_GAME_TIME, LAST_TIME, SLOWEST};
use super::random::Random;

pub const RELOADS: [u32; 8] = [0, 1, 2, 0x7FFF, 0x8000, 0xFC18, 0xFFFE, 0xFFFF];

/// Reloads whose periods make a duty of exactly 0.05 or 0.95 possible.
pub const SOUND_RELOADS: [u32; 5] = [0xFFEC, 0xFFD8, 0xFF9C, 0xFC18, 0xB1E0];

pub const CLOCKS: [u32; 9] = [0, 1, 2, 3, 255, 256, 24_000_000, 1 << 31, u32::MAX];

/// Seconds, minutes and hours in and far beyond their ranges.
#[rustfmt::skip]
pub const FIELDS: [u32; 17] = [
    0, 1, 12, 22, 23, 24, 25, 48, 58, 59, 60, 61, 86_399, 86_400, 0x7FFF_FFFF, 0x8000_0000,
    u32::MAX,
];

pub const BYTES: [u8; 7] = [0x00, 0x01, 0x10, 0x7F, 0x80, 0xEF, 0xFF];

/// The turbos that are lived with for a while.
pub const TURBOS: [f64; 6] = [SLOWEST, 0.1, 1.0, 60.0, 1000.5, FASTEST];

pub const TURBO_EDGES: [f64; 18] = [
    SLOWEST,
    SLOWEST.next_down(),
    SLOWEST.next_up(),
    1.0,
    1000.5,
    FASTEST,
    FASTEST.next_down(),
    FASTEST.next_up(),
    0.0,
    -0.0,
    f64::from_bits(1),
    -SLOWEST,
    -1.0,
    f64::MAX,
    f64::INFINITY,
    f64::NEG_INFINITY,
    f64::NAN,
    -f64::NAN,
];

/// Bit patterns and not numbers, for some are signalling NaNs.
pub const TIME_EDGES: [u64; 22] = [
    0,
    (-0.0f64).to_bits(),
    // Subnormals, and the numbers beside them.
    1,
    0x8000_0000_0000_0001,
    0x000F_FFFF_FFFF_FFFF,
    0x0010_0000_0000_0000,
    1.0f64.to_bits(),
    (-1.0f64).to_bits(),
    LAST_TIME.next_down().to_bits(),
    LAST_TIME.to_bits(),
    LAST_TIME.next_up().to_bits(),
    (-LAST_TIME).to_bits(),
    LAST_GAME_TIME.to_bits(),
    f64::MAX.to_bits(),
    f64::MIN.to_bits(),
    f64::INFINITY.to_bits(),
    f64::NEG_INFINITY.to_bits(),
    0x7FF0_0000_0000_0001,
    0x7FF8_0000_0000_0000,
    0x7FFF_FFFF_FFFF_FFFF,
    0xFFF0_0000_0000_0001,
    0xFFF8_0000_0000_0000,
];

const TWO_52: f64 = (1u64 << 52) as f64;
const TWO_63: f64 = (1u64 << 63) as f64;

/// Numbers for state that no list would reach by itself: about where whole
/// parts, counts and casts end.
pub const WILD_NUMBERS: [f64; 30] = [
    0.0,
    -0.0,
    f64::from_bits(1),
    -f64::from_bits(1),
    f64::MIN_POSITIVE,
    0.5,
    1.0 - f64::EPSILON / 2.0,
    1.0,
    -1.0,
    -0.75,
    59.999_999,
    86_399.5,
    -86_400.0,
    4_294_967_295.5,
    TWO_52 - 0.5,
    TWO_52 * 2.0,
    TWO_52 * 2.0 - 1.0,
    TWO_63 / 32768.0,
    TWO_63.next_down() / 32768.0,
    -TWO_63 / 32768.0,
    TWO_63,
    TWO_63.next_down(),
    -TWO_63,
    -TWO_63.next_up(),
    TWO_63 * 2.0,
    (TWO_63 * 2.0).next_down(),
    f64::MAX,
    f64::MIN,
    f64::INFINITY,
    f64::NEG_INFINITY,
];

pub const WILD_COUNTS: [u64; 16] = [
    0,
    1,
    2,
    59,
    86_399,
    86_400,
    0x7FFF_FFFF,
    0xFFFF_FFFF,
    0x1_0000_0000,
    0x8000_0000_0001,
    0xFFFF_FFFF_FFFF,
    1 << 53,
    (1 << 63) - 1,
    1 << 63,
    u64::MAX - 1,
    u64::MAX,
];

/// The number so many places above `number`, or below if negative.
pub fn off(number: f64, places: i32) -> f64 {
    let step = |n: f64| if places < 0 { n.next_down() } else { n.next_up() };
    (0..places.abs()).fold(number, |n, _| step(n))
}

/// A number from 0 to less than 1.
pub fn fraction(random: &mut Random) -> f64 {
    (random.next() >> 11) as f64 / (1u64 << 53) as f64
}
