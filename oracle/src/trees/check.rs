//! The check of a tree, as its readings have it: which rows a root reaches, by how many words, in
//! which slots each stands, and which is the lowest that is bad.
use super::pool::Pool;
use super::slots::{is_mark, marks, slots, Slot, ROOT};

/// What can be wrong with a row.
#[derive(Clone, Copy, Debug, PartialEq, Eq, PartialOrd, Ord)]
pub enum Fault {
    /// The kind is none, or the mark none of its kind's.
    Kind,
    Mark,
    /// A child word that its kind doesn't use isn't 0, one that it needs is, or one is no earlier
    /// row.
    Unused,
    Missing,
    Later,
    /// The next word is neither 0 nor a later row of the pool, or not 0 outside of a list.
    Next,
    Outside,
    /// It is reached by two words, or by one and as the root.
    Twice,
    /// Its slot doesn't take it.
    Slot,
}

pub const FAULTS: [Fault; 9] = [
    Fault::Kind,
    Fault::Mark,
    Fault::Unused,
    Fault::Missing,
    Fault::Later,
    Fault::Next,
    Fault::Outside,
    Fault::Twice,
    Fault::Slot,
];

/// The place of the refusal, and what is wrong there: the lowest bad row that the root reaches, or
/// 0 where the root is no row. None for a tree.
pub fn first_bad(pool: Pool, root: usize) -> Option<(usize, Vec<Fault>)> {
    if !pool.has(root) {
        return Some((0, vec![]));
    }
    let rows = reached_rows(pool, root);
    let (words, stands) = (words_to(pool, root, &rows), stands(pool, root, &rows));
    let faults = |row: usize| {
        let mut faults = own_faults(pool, row);
        faults.extend((words[row] > 1).then_some(Fault::Twice));
        faults.extend(stands[row].iter().flat_map(|&slot| slot_faults(pool, row, slot)));
        faults
    };
    rows.into_iter().map(|row| (row, faults(row))).find(|(_, faults)| !faults.is_empty())
}

/// The rows that a root reaches, rising.
pub fn reached_rows(pool: Pool, root: usize) -> Vec<usize> {
    let reached = reached(pool, root);
    (1..=pool.rows()).filter(|&row| reached[row]).collect()
}

/// Whether the root reaches each row by child and next words.
fn reached(pool: Pool, root: usize) -> Vec<bool> {
    let mut reached = vec![false; pool.rows() + 1];
    let mut open = vec![root];
    while let Some(row) = open.pop() {
        if !std::mem::replace(&mut reached[row], true) {
            open.extend(pool.led_to(row));
        }
    }
    reached
}

/// By how many words of the reached rows each row is reached; the root once more.
fn words_to(pool: Pool, root: usize, reached: &[usize]) -> Vec<usize> {
    let mut words = vec![0; pool.rows() + 1];
    words[root] += 1;
    for row in reached.iter().flat_map(|&row| pool.led_to(row)) {
        words[row] += 1;
    }
    words
}

/// The slots in which each row stands: the root's, that of each child word for it, and along next
/// words those of the lists in which the row before it stands.
fn stands(pool: Pool, root: usize, reached: &[usize]) -> Vec<Vec<Slot>> {
    let mut stands = vec![vec![]; pool.rows() + 1];
    let mut new = vec![(root, ROOT)];
    for &row in reached {
        let given = slots(pool.kind(row)).iter().copied();
        new.extend(pool.children(row).into_iter().zip(given).filter(|&(child, _)| pool.has(child)));
    }
    while let Some((row, slot)) = new.pop() {
        if stands[row].contains(&slot) {
            continue;
        }
        stands[row].push(slot);
        let next = pool.next(row);
        if slot.is_list() && row < next && pool.has(next) {
            new.push((next, slot));
        }
    }
    stands
}

/// What is wrong with a row's own words, wherever it stands.
pub fn own_faults(pool: Pool, row: usize) -> Vec<Fault> {
    let (kind, mark, next) = (pool.kind(row), pool.mark(row), pool.next(row));
    let mut faults = vec![];
    if marks(kind) == 0 {
        faults.push(Fault::Kind);
    } else if !is_mark(kind, mark) {
        faults.push(Fault::Mark);
    }
    for (index, child) in pool.children(row).into_iter().enumerate() {
        let slot = slots(kind).get(index);
        faults.extend((slot.is_none() && child != 0).then_some(Fault::Unused));
        faults
            .extend((slot.is_some_and(|s| s.is_needed()) && child == 0).then_some(Fault::Missing));
        faults.extend((slot.is_some() && child >= row).then_some(Fault::Later));
    }
    if !(next == 0 || (row < next && pool.has(next))) {
        faults.push(Fault::Next);
    }
    faults
}

/// What is wrong with a row in a slot in which it stands.
pub fn slot_faults(pool: Pool, row: usize, slot: Slot) -> Vec<Fault> {
    let mut faults = vec![];
    if !slot.takes.takes(pool.kind(row), pool.mark(row)) {
        faults.push(Fault::Slot);
    }
    if !slot.is_list() && pool.next(row) != 0 {
        faults.push(Fault::Outside);
    }
    faults
}

#[cfg(test)]
mod tests {
    use super::*;
    use crate::trees::examples::pool_of;
    use Fault::*;

    /// The lowest bad row and its faults, of rows in the text form.
    fn bad(rows: &str, root: usize) -> Option<(usize, Vec<Fault>)> {
        first_bad(Pool(&pool_of(rows)), root)
    }

    #[test]
    fn a_cycle_is_a_row_that_is_reached_twice() {
        assert_eq!(bad("13 2 0 2/13 2 0 1", 1), Some((1, vec![Later, Twice])));
        assert_eq!(bad("13 2 0 2/13 2 0 1", 2), Some((1, vec![Later])));
        assert_eq!(bad("2 0 0 0 0 0 0 2/2 0 0 0 0 0 0 1/8 0 0 1", 3), Some((1, vec![Twice])));
        assert_eq!(bad("2 0 0 0 0 0 0 3/8 0 0 1/2 0 0 0 0 0 0 1", 2), Some((1, vec![Twice])));
        assert_eq!(bad("2 0 0 0 0 0 0 1", 1), Some((1, vec![Next, Twice, Outside])));
    }

    #[test]
    fn a_row_that_is_not_reached_says_nothing() {
        assert_eq!(bad("2/99 7 0 1 1 1 1 1/13 0 0 1", 3), None);
    }

    #[test]
    fn the_lowest_bad_row_counts_whatever_its_fault() {
        // Row 1 stands in a call's list and isn't an expression; row 2 has a wrong mark.
        assert_eq!(bad("18/2 5/11 0 0 2 1", 3), Some((1, vec![Slot])));
        assert_eq!(bad("2/2 5/11 0 0 2 1", 3), Some((2, vec![Mark])));
        assert_eq!(bad("2/2/11 4 0 2 1", 3), Some((3, vec![Mark])));
        assert_eq!(bad("20/2/11 4 0 2 1", 3), Some((1, vec![Kind, Slot])));
    }

    #[test]
    fn each_fault_of_a_child_word() {
        assert_eq!(bad("2/2 0 0 1", 2), Some((2, vec![Unused])));
        assert_eq!(bad("2/15 0 0 0 1", 2), Some((2, vec![Missing])));
        assert_eq!(bad("13 2 0 2/2", 1), Some((1, vec![Later])));
        assert_eq!(bad("13 2 0 3/2", 1), Some((1, vec![Later])));
    }

    #[test]
    fn a_row_behind_one_in_no_list_stands_in_no_slot() {
        // Row 3 is next of row 1, which a prefix owns: row 1 is bad, and of row 3 nothing is asked.
        assert_eq!(bad("2 0 0 0 0 0 0 3/13 0 0 1/18", 2), Some((1, vec![Outside])));
        // An unused word gives no slot either.
        assert_eq!(bad("18/2 0 0 1", 2), Some((2, vec![Unused])));
    }
}
