//! Writes lists for the time devices.

mod clocks;
#[path = "../common/mod.rs"]
mod common;
mod families;
mod fixed;
mod limits;
mod list;
mod steps;
mod timers;

use std::process::ExitCode;

use common::device::*;
use common::small::*;

fn main() -> ExitCode {
    common::generator::run::<families::Author>()
}
