//! Answers a list for the panel by the Rust device itself: document 000,
//! included unchanged. `steps.rs` says which steps there are.

#[path = "../common/mod.rs"]
mod common;
mod counts;
// The program that writes lists uses all of it.
#[allow(dead_code)]
mod steps;

use std::io;

use common::device::*;
use common::small::*;

fn main() -> io::Result<()> {
    common::answers::answer_list::<steps::Panel>()
}
