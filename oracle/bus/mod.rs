//! The whole bus: its steps and the lists of them. A script's steps are steps
//! of the bus, so the programs for scripts read all of this in, too.

// A program that only answers lists uses few of these.
#![allow(dead_code)]

pub mod cases;
pub mod clock_cases;
pub mod clocks;
pub mod damage;
pub mod device_cases;
pub mod families;
pub mod fixed;
pub mod flash;
pub mod keys;
pub mod kinds;
pub mod limit_cases;
pub mod limits;
pub mod list;
pub mod map;
pub mod memory;
pub mod panel;
pub mod show;
pub mod status;
pub mod status_cases;
pub mod steps;
pub mod time_cases;
pub mod timers;
pub mod wipes;
pub mod words;
