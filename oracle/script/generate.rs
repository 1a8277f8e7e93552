//! Writes the fixed list of scripts.

#[path = "../bus/mod.rs"]
mod bus;
mod bytes;
// The comparison uses all of these, this program only some.
#[allow(dead_code)]
mod cases;
#[path = "../common/mod.rs"]
mod common;
mod desk;
mod device_cases;
mod faults;
mod fixed;
mod make;
#[allow(dead_code)]
mod memories;
mod run;
#[allow(dead_code)]
mod starts;
mod steps;
mod whole;

use std::io;

use common::device::*;
use common::small::*;

fn main() -> io::Result<()> {
    common::generator::write_list(fixed::fixed_list())
}
