//! What is asked of rows before they are written as JSON: that they are a tree whose payloads are in
//! the file, and that no path is too long.
use super::payload::class_of;
use super::MOST_DEEP;
use crate::files::Field;
use crate::trees::check::{self, reached_rows, Fault};
use crate::trees::pool::Pool;

/// How a row that needs a field has none.
#[derive(Clone, Copy, Debug, PartialEq)]
pub enum Lack {
    /// Its place is no field's number.
    NoField,
    /// That field is of another class.
    OtherClass,
}

/// The lowest bad row, and what is wrong with it; row 0 where the root is none.
#[derive(Debug, PartialEq)]
pub struct Bad {
    pub row: usize,
    pub faults: Vec<Fault>,
    pub lack: Option<Lack>,
}

/// The bad row that counts; None if the rows are a tree with its payloads.
pub fn first_bad(pool: Pool, root: usize, fields: &[Field]) -> Option<Bad> {
    let of_tree = check::first_bad(pool, root);
    if !pool.has(root) {
        return of_tree.map(|(row, faults)| Bad { row, faults, lack: None });
    }
    let lacks = reached_rows(pool, root).into_iter();
    let lacking = lacks.filter_map(|row| lack(pool, row, fields).map(|lack| (row, lack))).next();
    let row = match (&of_tree, lacking) {
        (Some((bad, _)), Some((lacking, _))) => *bad.min(&lacking),
        (Some((bad, _)), None) => *bad,
        (None, Some((lacking, _))) => lacking,
        (None, None) => return None,
    };
    let faults = of_tree.filter(|(bad, _)| *bad == row).map_or(vec![], |(_, faults)| faults);
    Some(Bad { row, faults, lack: lack(pool, row, fields) })
}

/// What a row lacks, whatever else is right or wrong with it.
fn lack(pool: Pool, row: usize, fields: &[Field]) -> Option<Lack> {
    let class = class_of(pool.kind(row))?;
    match fields.get(pool.place(row) as usize) {
        None => Some(Lack::NoField),
        Some(field) if field.class != class => Some(Lack::OtherClass),
        _ => None,
    }
}

/// The lowest row of a tree with too many rows on the path to it from the root. A path goes from a row
/// to the members of each of its slots.
pub fn first_deep(pool: Pool, root: usize) -> Option<usize> {
    let (mut deep, mut open) = (None, vec![(root, 1)]);
    while let Some((row, depth)) = open.pop() {
        if depth > MOST_DEEP {
            deep = Some(deep.map_or(row, |lowest: usize| lowest.min(row)));
        }
        for child in pool.children(row) {
            open.extend(members(pool, child).map(|member| (member, depth + 1)));
        }
    }
    deep
}

/// The rows from a first one on by next words; none from 0.
fn members(pool: Pool<'_>, first: usize) -> impl Iterator<Item = usize> + '_ {
    let is_row = |row: &usize| *row != 0;
    let first = Some(first).filter(is_row);
    std::iter::successors(first, move |&row| Some(pool.next(row)).filter(is_row))
}

/// The same row once more, from each row backward to its owners: slow, for a tree of few rows.
pub fn first_deep_backward(pool: Pool, root: usize) -> Option<usize> {
    let rows = reached_rows(pool, root);
    // What refers to each row, and whether that is its owner and not the one before it in a list.
    let mut from = vec![(0, false); pool.rows() + 1];
    for &row in &rows {
        pool.children(row).iter().for_each(|&child| from[child] = (row, true));
    }
    for &row in rows.iter().filter(|&&row| pool.next(row) != 0) {
        from[pool.next(row)] = (row, false);
    }
    let depth = |row: usize| {
        let (mut depth, mut at) = (1, row);
        while at != root {
            depth += usize::from(from[at].1);
            at = from[at].0;
        }
        depth
    };
    rows.iter().copied().find(|&row| depth(row) > MOST_DEEP)
}

#[cfg(test)]
mod tests {
    use super::*;
    use crate::trees::examples::pool_of;
    use Lack::*;

    const NAME: Field = Field { class: 7, payload: b"a" };
    const PLUS: Field = Field { class: 8, payload: &[1] };

    /// The lowest bad row, its faults and what it lacks, of rows in the text form.
    fn bad(rows: &str, root: usize, fields: &[Field]) -> Option<(usize, Vec<Fault>, Option<Lack>)> {
        let bad = first_bad(Pool(&pool_of(rows)), root, fields);
        bad.map(|bad| (bad.row, bad.faults, bad.lack))
    }

    #[test]
    fn the_lowest_bad_row_counts_whatever_it_lacks() {
        assert_eq!(bad("2/2 0 1", 2, &[NAME, PLUS]), Some((2, vec![], Some(OtherClass))));
        assert_eq!(bad("2/2 0 2", 2, &[NAME, PLUS]), Some((2, vec![], Some(NoField))));
        assert_eq!(bad("2/2 0 1", 1, &[NAME, PLUS]), None);
        // Of two rows the lower one counts, be it no row of a tree or one without its field.
        assert_eq!(bad("2 0 9/2 5/12 0 0 1 2", 3, &[NAME]), Some((1, vec![], Some(NoField))));
        assert_eq!(bad("2 5/2 0 9/12 0 0 1 2", 3, &[NAME]), Some((1, vec![Fault::Mark], None)));
        assert_eq!(bad("2 5 9", 1, &[NAME]), Some((1, vec![Fault::Mark], Some(NoField))));
        assert_eq!(bad("2", 2, &[]), Some((0, vec![], None)));
    }

    #[test]
    fn a_list_is_no_step() {
        let nest = |count: usize| {
            let rows: Vec<String> = (1..=count).map(|row| format!("13 2 0 {}", row)).collect();
            pool_of(&["1".to_string()].into_iter().chain(rows).collect::<Vec<_>>().join("/"))
        };
        let list = |count: usize| {
            let next = |row| if row < count { row + 1 } else { 0 };
            let rows: Vec<String> =
                (1..=count).map(|row| format!("1 0 0 0 0 0 0 {}", next(row))).collect();
            pool_of(&(rows.join("/") + "/8 0 0 1"))
        };
        for (pool, root, deep) in
            [(nest(127), 128, None), (nest(128), 129, Some(1)), (list(300), 301, None)]
        {
            assert_eq!(first_deep(Pool(&pool), root), deep);
            assert_eq!(first_deep_backward(Pool(&pool), root), deep);
        }
    }
}
