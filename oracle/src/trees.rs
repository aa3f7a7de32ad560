//! Trees in pools: the check of a tree and its written form, modelled from their readings, with
//! generators, the round trip, and the records that the program `retrace` reads.
mod backward;
pub mod case;
pub mod check;
mod commands;
mod damage;
pub mod examples;
pub mod gen;
pub mod grow;
pub mod held;
mod judge;
mod large;
mod layout;
pub mod pool;
mod record;
mod selfcheck;
pub mod slots;
mod table;
mod tally;
mod write;

pub use commands::{run, USAGE};

/// The refusal of rows that are no tree, and that of a slice that is too short.
pub const NO_TREE: u32 = 38;
pub const NO_ROOM: u32 = 32;
