//! Arrays at and beyond the limits: faulty words, EOF out of place, lengths, starts, and pools.
use super::lengths::{self, EIGHTHS};
use super::rng::Rng;
use crate::batch::Case;
use crate::model::{Entry, MOST_ROWS, ROW};
use crate::words::*;

/// The farthest start and the greatest length that a batch can hold.
const FARTHEST: usize = u16::MAX as usize;

/// The cases that every run of this kind has: lengths, starts and the largest pools.
pub fn fixed() -> Vec<Case> {
    let mut cases = vec![];
    for entry in [Entry::Expression, Entry::Statement, Entry::Script] {
        let mut add = |start: usize, pool: usize, tokens: &[u16]| {
            cases.push(Case::old(entry, start, pool, tokens.to_vec()));
        };
        for pool in (0..=2 * EIGHTHS + 1).map(lengths::words) {
            add(0, pool, &[EOF]);
            add(0, pool, &[IDENTIFIER, EOF]);
            add(0, pool, &[EMPTY, EOF]);
        }
        for start in [0, 1, 2, 3, 4, FARTHEST] {
            add(start, 10 * ROW, &[]);
            add(start, 10 * ROW, &[IDENTIFIER]);
            add(start, 10 * ROW, &[IDENTIFIER, SEMICOLON, EOF]);
            add(start, 10 * ROW, &[EOF, 0x0B00, EOF]);
        }
        for length in [LONGEST - 1, LONGEST, LONGEST + 1, FARTHEST] {
            for rows in [MOST_ROWS - 1, MOST_ROWS, MOST_ROWS + 1] {
                add(0, rows * ROW + 3, &long(length, &[IDENTIFIER]));
            }
            add(0, MOST_ROWS * ROW, &long(length, &[IDENTIFIER, EQ]));
            add(0, MOST_ROWS * ROW, &long(length, &[IDENTIFIER, DOT]));
            add(length - 2, 8 * ROW, &long(length, &[IDENTIFIER, SEMICOLON]));
            add(0, 8 * ROW, &long(length, &[SEMICOLON]));
        }
    }
    cases
}

/// An array of `length` words: `unit` again and again, then EOF.
fn long(length: usize, unit: &[u16]) -> Vec<u16> {
    unit.iter().copied().cycle().take(length - 1).chain([EOF]).collect()
}

/// Puts one to three faults of refusal 1 into an array that ends in EOF.
pub fn spoil(rng: &mut Rng, tokens: &mut Vec<u16>) {
    for _ in 0..1 + rng.below(3) {
        if tokens.is_empty() {
            return;
        }
        let at = rng.below(tokens.len());
        match rng.below(6) {
            0 => tokens[at] = EOF,
            1 => tokens.insert(at, EOF),
            2 => tokens.truncate(at),
            3 => tokens.push(EOF),
            _ => tokens[at] = bad_word(rng),
        }
    }
}

/// A word whose class or code isn't one of 01's.
fn bad_word(rng: &mut Rng) -> u16 {
    loop {
        let edges = [0x0B00, 0x0829, 0x091C, 0x0201, 0x0001, 0x0701, 0xFFFF, 0x0A01];
        let word = if rng.chance(1, 2) { rng.pick(&edges) } else { rng.below(65536) as u16 };
        if !is_valid(word) {
            return word;
        }
    }
}
