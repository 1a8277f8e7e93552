//! Answers a list for the time devices by the Rust device itself: document
//! 000, included unchanged. `steps.rs` says which steps there are.

#[path = "../common/mod.rs"]
mod common;
mod steps;

use std::io;

use common::device::*;
use common::small::*;

fn main() -> io::Result<()> {
    common::answers::answer_list::<sys::System>()
}
