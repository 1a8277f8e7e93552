//! Writes lists for the panel.

mod cases;
mod colours;
#[path = "../common/mod.rs"]
mod common;
mod counts;
mod families;
mod fixed;
mod frames;
mod list;
mod steps;
mod windows;

use std::process::ExitCode;

use common::device::*;
use common::small::*;

fn main() -> ExitCode {
    common::generator::run::<families::Author>()
}
