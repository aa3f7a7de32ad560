//! The model: document 01 as a reader over token words, written function for function after 000.
mod expressions;
mod pool;
mod reader;
mod statements;

use crate::words;
pub use reader::MOST_OPEN;
use reader::{Read, Reader, Refusal};

/// Words of a row, and the most rows a pool has.
pub const ROW: usize = 9;
pub const MOST_ROWS: usize = 65535;
pub type Row = [u32; ROW];

/// Where a row's children stand, behind kind, mark and place; its next word; and its end, the place of
/// the current token when it was built.
pub const CHILDREN: std::ops::Range<usize> = 3..7;
pub const NEXT: usize = 7;
pub const END: usize = 8;

/// The three entries that read tokens.
#[derive(Clone, Copy, Debug, PartialEq)]
pub enum Entry {
    Expression,
    Statement,
    Script,
}

/// By which rules they read: the original's; or strict ones, by which a call with arguments needs
/// its closer, and the bodies of while, foreach and finally their opener.
#[derive(Clone, Copy, Debug, PartialEq)]
pub enum Mode {
    Old,
    Strict,
}

/// The refusal for want of a row, and that of strict mode: a wrong opener or closer.
pub const NO_ROW: u32 = 3;
pub const WRONG_SIGN: u32 = 30;

/// Reads `tokens` into `pool` and gives the four answer words.
pub fn read(entry: Entry, mode: Mode, start: usize, tokens: &[u16], pool: &mut [u32]) -> [u32; 4] {
    pool.fill(0);
    let answer = read_into(entry, mode, start, tokens, pool);
    answer.unwrap_or_else(|refusal| {
        pool.fill(0);
        [refusal.number, refusal.place, 0, 0]
    })
}

fn read_into(
    entry: Entry,
    mode: Mode,
    start: usize,
    tokens: &[u16],
    pool: &mut [u32],
) -> Read<[u32; 4]> {
    check_array(tokens)?;
    let from = if entry == Entry::Script { 0 } else { start };
    if from >= tokens.len() {
        return Err(Refusal { number: 4, place: 0 });
    }
    let mut reader = Reader::new(tokens, from, mode, pool);
    let root = match entry {
        Entry::Expression => reader.parse_expression(expressions::ZERO),
        Entry::Statement => reader.parse_statement(),
        Entry::Script => reader.parse(),
    }?;
    Ok([0, root, reader.rows_used(), reader.place()])
}

/// Refusal 1: the length, then the lowest place with any fault.
fn check_array(tokens: &[u16]) -> Read<()> {
    let bad = |place: usize| Err(Refusal { number: 1, place: place as u32 });
    if tokens.is_empty() || tokens.len() > words::LONGEST {
        return bad(0);
    }
    let last = tokens.len() - 1;
    let faulty = |(place, &word): (usize, &u16)| {
        !words::is_valid(word) || (word == words::EOF) != (place == last)
    };
    match tokens.iter().enumerate().position(faulty) {
        Some(place) => bad(place),
        None => Ok(()),
    }
}
