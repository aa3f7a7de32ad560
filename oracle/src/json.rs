//! Trees as JSON texts: the model of the text and of its refusals, a reader that takes it back, with
//! generators, and the records that the program `retell` reads.
mod back;
mod case;
mod check;
mod commands;
mod examples;
mod fields;
mod gen;
mod judge;
mod model;
mod payload;
mod read;
mod record;
mod tally;
mod told;
mod write;

pub use commands::{run, USAGE};

/// The refusal of a tree that is too deep, and the most rows on a path from the root through children.
const TOO_DEEP: u32 = 34;
const MOST_DEEP: usize = 128;
