//! What the harnesses share.

// No program uses all of it.
#![allow(dead_code)]

pub mod answers;
pub mod device;
pub mod edges;
pub mod ended;
pub mod folded;
pub mod full;
pub mod generator;
pub mod limits;
pub mod numbers;
pub mod random;
pub mod small;
pub mod step;
pub mod step_list;
