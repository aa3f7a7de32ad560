//! Whether all readers agree about a script, asked before it is timed.
use crate::readers::{self, Reader, CHILD, NEXT, ROW};

/// Stands in every word of a pool before a reader is asked.
const FILLING: u32 = 0xA5A5_A5A5;

/// The rows a script takes; stops the bench if it isn't accepted, or if the readers differ.
pub fn rows_of(tokens: &[u16]) -> usize {
    // No script takes more rows than two for each token but EOF, and one.
    let plenty = 2 * tokens.len() - 1;
    let (answer, pool) = agreed(tokens, plenty);
    assert_eq!(answer[0], 0, "the script is refused: {:?}", answer);
    let rows = answer[2] as usize;
    let (_, just) = agreed(tokens, rows);
    assert!(pool[..just.len()] == just[..], "with just enough rows the tree is another");
    assert_eq!(agreed(tokens, rows - 1).0[0], 3, "one row fewer is enough");
    let statements = readers::original(&mut readers::prepared(tokens)).statements.len();
    assert_eq!(statements, listed(&pool, answer[1] as usize), "the original differs");
    rows
}

/// What both readers that fill pools make of a script, the answer and every word of a pool of so many rows.
fn agreed(tokens: &[u16], rows: usize) -> ([u64; 4], Vec<u32>) {
    let by = |read: fn(&[u16], &mut [u32]) -> [u64; 4]| {
        let mut pool = vec![FILLING; rows * ROW];
        (read(tokens, &mut pool), pool)
    };
    let plain = by(readers::plain);
    if Reader::all().contains(&Reader::Ours) {
        assert!(by(readers::ours) == plain, "this reader and the C reader differ");
        assert!(by(readers::strict) == plain, "this reader differs in strict mode");
    }
    plain
}

/// How many statements hang in the root block.
fn listed(pool: &[u32], root: usize) -> usize {
    let word = |reference: usize, word: usize| pool[(reference - 1) * ROW + word] as usize;
    let mut reference = word(root, CHILD);
    let mut count = 0;
    while reference != 0 {
        count += 1;
        reference = word(reference, NEXT);
    }
    count
}
