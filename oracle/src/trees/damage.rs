//! Damage to a pool: a few words changed to ones that may be at fault, rows exchanged or cut off;
//! and pools of random words.
use super::pool::Pool;
use super::slots::{bare_kinds, marks};
use crate::gen::lengths::{eighths, words, EIGHTHS};
use crate::gen::rng::Rng;
use crate::kinds;
use crate::model::{END, NEXT, ROW};

/// Changes one to three things in a pool or its root.
pub fn damage(rng: &mut Rng, pool: &mut Vec<u32>, root: &mut usize) {
    for _ in 0..[1, 1, 1, 2, 2, 3][rng.below(6)] {
        let rows = Pool(pool).rows();
        if rows == 0 {
            return;
        }
        match rng.below(24) {
            0 => *root = self::root(rng, rows),
            1 => exchange(rng, pool, rows),
            2 => {
                let length = eighths(pool.len());
                pool.truncate(words(length - 1 - rng.below(EIGHTHS.min(length))));
            }
            _ => change(rng, pool, rows),
        }
    }
}

/// Another root, mostly a row's reference.
pub fn root(rng: &mut Rng, rows: usize) -> usize {
    match rng.below(8) {
        0 => 0,
        1 => rows + 1 + rng.below(3),
        2 => rng.pick(&[65_535, 65_536, 65_537, 1 << 31, u32::MAX as usize]),
        _ => 1 + rng.below(rows),
    }
}

/// Exchanges two rows.
fn exchange(rng: &mut Rng, pool: &mut [u32], rows: usize) {
    let (one, other) = (rng.below(rows), rng.below(rows));
    for index in 0..ROW {
        pool.swap(one * ROW + index, other * ROW + index);
    }
}

/// Changes a word of a row.
fn change(rng: &mut Rng, pool: &mut [u32], rows: usize) {
    let row = 1 + rng.below(rows);
    let index = rng.pick(&[0, 0, 1, 1, 2, 3, 3, 3, 4, 4, 5, 6, NEXT, NEXT, NEXT]);
    let kind = pool[(row - 1) * ROW];
    let word = &mut pool[(row - 1) * ROW + index];
    *word = match index {
        0 => any_kind(rng),
        1 => any_mark(rng, kind),
        2 => rng.below(1 << 32) as u32,
        _ => any_reference(rng, row, rows),
    };
}

fn any_kind(rng: &mut Rng) -> u32 {
    match rng.below(6) {
        0 => rng.pick(&[0, 20, 31, 47, 48, 258, u32::MAX]),
        1 | 2 => rng.pick(&bare_kinds()),
        _ => rng.pick(kinds::ALL),
    }
}

fn any_mark(rng: &mut Rng, kind: u32) -> u32 {
    let edge = marks(kind);
    let any = rng.below(1 << 32) as u32;
    let below = |mark: u32| mark.saturating_sub(1);
    rng.pick(&[
        0,
        below(edge),
        edge,
        edge + 1,
        255,
        256,
        255 + edge,
        256 + edge,
        512,
        768,
        u32::MAX,
        any,
    ])
}

/// A word that may refer to a row: none, an earlier or later one, the row itself, or one beyond the
/// last.
fn any_reference(rng: &mut Rng, row: usize, rows: usize) -> u32 {
    let edges = [0, 0, row, row + 1, row - 1, rows, rows + 1, rows + 2, 65_536, u32::MAX as usize];
    let word = if rng.chance(1, 2) { rng.pick(&edges) } else { rng.below(rows + 1) };
    word as u32
}

/// Puts other words into the ends of rows, which say nothing of a tree: none, small ones, or any.
pub fn other_ends(rng: &mut Rng, pool: &mut [u32]) {
    let which = rng.below(3);
    for row in pool.chunks_exact_mut(ROW) {
        let any = rng.below(1 << 32) as u32;
        match which {
            0 => (),
            1 => row[END] = any % 1000,
            _ => row[END] = rng.pick(&[any, any, 0, u32::MAX]),
        }
    }
}

/// A pool of up to eight rows of random words, most of which may be right; and a root.
pub fn noise(rng: &mut Rng) -> (Vec<u32>, usize) {
    let rows = 1 + rng.below(8);
    let empty = 1 + rng.below(8);
    let mut pool = vec![0; rows * ROW];
    for (row, index) in (0..rows).flat_map(|row| (0..END).map(move |index| (row, index))) {
        let limit = 1 + row + usize::from(rng.chance(1, 6));
        pool[row * ROW + index] = match index {
            0 => any_kind(rng),
            1 if rng.chance(1, 8) => rng.pick(&[1, 2, 3, 22, 23, 256, 257]),
            2 => rng.below(100) as u32,
            3..=6 if rng.chance(1, empty) => rng.below(limit) as u32,
            NEXT if rng.chance(1, 5) => rng.below(rows + 2) as u32,
            _ => 0,
        };
    }
    let root = if rng.chance(1, 12) { root(rng, rows) } else { rows };
    (pool, root)
}
