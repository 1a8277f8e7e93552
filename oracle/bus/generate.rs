//! Writes lists for the whole bus.

#[path = "mod.rs"]
mod bus;
#[path = "../common/mod.rs"]
mod common;

use std::process::ExitCode;

use common::device::*;
use common::small::*;

fn main() -> ExitCode {
    common::generator::run::<bus::families::Author>()
}
