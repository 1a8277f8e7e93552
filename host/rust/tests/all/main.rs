//! Tests over the linked library. What it computes is proved and compared elsewhere; these try what this crate adds:
//! that calls reach their functions, with every argument, and that answers come back whole.

mod header;
mod made;
mod plain;
mod refusals;
mod scripts;
mod scrubbed;
mod session;
mod threads;
mod wipe;
