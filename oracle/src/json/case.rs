//! One question to the writer of JSON: a pool, a root, a token file, and how long the lent slice is.
use super::model;
use super::write::text;
use crate::gen::rng::Rng;
use crate::trees::case::told;
use std::fmt;

#[derive(Clone, Debug)]
pub struct Case {
    pub pool: Vec<u32>,
    pub root: usize,
    pub file: Vec<u8>,
    pub room: usize,
}

/// The most that the slice may have, so that a program with fixed buffers can lend it.
const MOST_ROOM: usize = 1 << 20;

/// The most bytes of a file that are shown.
const SHOWN: usize = 1000;

impl Case {
    /// A question with a little more room than it needs, if that may be.
    pub fn roomy(pool: Vec<u32>, root: usize, file: Vec<u8>) -> Case {
        let mut case = Case { pool, root, file, room: 0 };
        case.room = (case.length().unwrap_or(0) + 9).min(MOST_ROOM);
        case
    }

    /// A question whose room is about as long as the text, or much shorter or longer.
    pub fn about(rng: &mut Rng, pool: Vec<u32>, root: usize, file: Vec<u8>) -> Case {
        let mut case = Case { pool, root, file, room: 0 };
        let length = case.length().unwrap_or_else(|| rng.below(99));
        case.room = match rng.below(16) {
            0 => length,
            1 => length.saturating_sub(1),
            2 => rng.below(length + 1),
            3 => rng.pick(&[0, 0, 1, length.saturating_sub(2)]),
            4 => length + rng.below(500),
            _ => length + rng.below(9),
        };
        case.room = case.room.min(MOST_ROOM);
        case
    }

    /// The length of the text, if it isn't refused for something else than the room.
    fn length(&self) -> Option<usize> {
        model::told(self).ok().map(|tree| text(&tree).len())
    }
}

impl fmt::Display for Case {
    /// The rows and the fields as in the table of examples, long ones only by their lengths.
    fn fmt(&self, to: &mut fmt::Formatter) -> fmt::Result {
        let hex: String = self.file.iter().map(|byte| format!("{:02X}", byte)).collect();
        let long = format!("{} bytes", self.file.len());
        let file = if self.file.len() > SHOWN { long } else { hex };
        write!(to, "root {}, room for {}, {} [{}]", self.root, self.room, told(&self.pool), file)
    }
}
