//! The check of a tree once more, from each row backward to what refers to it: slow, and written
//! apart from the other, for small pools.
use super::check::{own_faults, slot_faults};
use super::pool::Pool;
use super::slots::{slots, Slot, ROOT};

/// The most rows of a pool that is small.
pub const SMALL: usize = 40;

/// The place of the refusal, as the other check has it.
pub fn refused(pool: Pool, root: usize) -> Option<usize> {
    if !pool.has(root) {
        return Some(0);
    }
    let reached = reached(pool, root);
    let refers = |row: usize, to: usize| pool.led_to(row).filter(|&met| met == to).count();
    let is_bad = |&row: &usize| {
        let words: usize = reached.iter().map(|&before| refers(before, row)).sum();
        let misfits = |slot: Slot| !slot_faults(pool, row, slot).is_empty();
        !own_faults(pool, row).is_empty()
            || words + usize::from(row == root) != 1
            || slots_of(pool, root, &reached, row).into_iter().any(misfits)
    };
    reached.iter().copied().filter(is_bad).min()
}

/// The reached rows: each that a reached one refers to, until there is no other.
fn reached(pool: Pool, root: usize) -> Vec<usize> {
    let mut reached = vec![root];
    let mut looked = 0;
    while looked < reached.len() {
        for row in pool.led_to(reached[looked]) {
            if !reached.contains(&row) {
                reached.push(row);
            }
        }
        looked += 1;
    }
    reached
}

/// The slots in which a row stands, by all that refers to it. A list goes on to later rows only, so
/// this ends.
fn slots_of(pool: Pool, root: usize, reached: &[usize], row: usize) -> Vec<Slot> {
    let mut found = if row == root { vec![ROOT] } else { vec![] };
    for &before in reached {
        let given = slots(pool.kind(before));
        for (&slot, child) in given.iter().zip(pool.children(before)) {
            if child == row {
                found.push(slot);
            }
        }
        if pool.next(before) == row && before < row {
            let lists = slots_of(pool, root, reached, before);
            found.extend(lists.into_iter().filter(|slot| slot.is_list()));
        }
    }
    found
}
