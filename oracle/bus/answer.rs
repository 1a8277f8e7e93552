//! Answers a list for the whole bus by the Rust device itself: document 000,
//! included unchanged. `steps.rs` says which steps there are.

#[path = "mod.rs"]
mod bus;
#[path = "../common/mod.rs"]
mod common;

use std::io;

use common::device::*;
use common::small::*;

fn main() -> io::Result<()> {
    common::answers::answer_list::<bus::steps::Board>()
}
