//! Answers a list that lays down scripts and runs them, by the Rust device
//! itself: document 000, included unchanged. `desk.rs` says which steps there
//! are.

#[path = "../bus/mod.rs"]
mod bus;
// The programs that write scripts use all of these, this one only some.
#[allow(dead_code)]
mod bytes;
#[path = "../common/mod.rs"]
mod common;
mod desk;
#[allow(dead_code)]
mod memories;
mod run;
#[allow(dead_code)]
mod starts;

use std::io;

use common::device::*;
use common::small::*;

fn main() -> io::Result<()> {
    common::answers::answer_list::<desk::Desk>()
}
