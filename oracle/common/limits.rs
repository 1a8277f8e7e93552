//! What the paper adds to document 000 and more than one harness needs: the
//! limits of time and turbo.

use super::numbers::{FASTEST, LAST_GAME_TIME, LAST_TIME, SLOWEST};
use crate::sys::System;

/// No step may name such a time.
pub fn bad_time(time: f64) -> bool {
    !time.is_finite() || time.is_sign_negative() || time > LAST_TIME
}

/// Nor may time advance to such a one.
pub fn bad_advance(system: &System, to: f64) -> bool {
    bad_time(to)
        || to < system.now
        || system.game_time + (to - system.now) * system.turbo > LAST_GAME_TIME
}

pub fn bad_turbo(turbo: f64) -> bool {
    !(SLOWEST..=FASTEST).contains(&turbo)
}
