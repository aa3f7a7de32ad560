//! One question to the check and the writer: a pool, a root, and how long the two lent slices are.
use super::held;
use super::pool::Pool;
use super::write::written;
use crate::gen::rng::Rng;
use std::fmt;

#[derive(Clone, Debug)]
pub struct Case {
    pub pool: Vec<u32>,
    pub root: usize,
    pub words: usize,
    pub places: usize,
}

/// The most that each slice may have, so that a program with fixed buffers can lend them.
const MOST_ROOM: usize = 131_072;

impl Case {
    /// A question whose slices are longer than any written form, if that may be.
    pub fn roomy(pool: Vec<u32>, root: usize) -> Case {
        let room = longest(Pool(&pool).rows()).min(MOST_ROOM);
        Case { pool, root, words: room, places: room }
    }

    /// A question whose slices are about as long as the written form, or much shorter.
    pub fn about(rng: &mut Rng, pool: Vec<u32>, root: usize) -> Case {
        let tree = if Pool(&pool).has(root) { held::tree(Pool(&pool), root) } else { None };
        let count = tree.map_or_else(|| rng.below(9), |tree| written(&tree).words.len());
        let few = rng.below(count + 1);
        let (words, places) = match rng.below(24) {
            0 | 1 => (count, count),
            2 => (count.saturating_sub(1), count),
            3 => (count, count.saturating_sub(1)),
            4 => (few, count + rng.below(3)),
            5 => (count + rng.below(3), few),
            6 => (few, rng.below(count + 1)),
            _ => (count + rng.below(4), count + rng.below(4)),
        };
        Case { pool, root, words: words.min(MOST_ROOM), places: places.min(MOST_ROOM) }
    }
}

/// More tokens than a pool of so many rows can be written as: no row has more than nine of its own.
fn longest(rows: usize) -> usize {
    10 * rows + 2
}

impl fmt::Display for Case {
    fn fmt(&self, to: &mut fmt::Formatter) -> fmt::Result {
        let pool = told(&self.pool);
        write!(to, "root {}, room for {} and {}, {}", self.root, self.words, self.places, pool)
    }
}

/// The rows of a pool as in the table of examples; one that is long only by its length.
pub fn told(pool: &[u32]) -> String {
    if pool.len() > 2000 {
        return format!("a pool of {} words", pool.len());
    }
    let rows: Vec<String> = pool.chunks(crate::model::ROW).map(row).collect();
    format!("rows {}", rows.join("/"))
}

/// A row's words, zeros behind the last other one left out.
fn row(words: &[u32]) -> String {
    let used = words.iter().rposition(|&word| word != 0).map_or(1, |last| last + 1);
    let words: Vec<String> = words[..used].iter().map(u32::to_string).collect();
    words.join(" ")
}
