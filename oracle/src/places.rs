//! What the original's tree can't tell of an accepted answer: inner places fit the tokens.
use crate::batch::{Answer, Case};
use crate::groups;
use crate::kinds::{self, *};
use crate::model::{Entry, CHILDREN, NEXT, ROW};
use crate::words;

/// The first row whose place or grouped mark can't be right, as a sentence. A refusal has none.
pub fn misplaced(case: &Case, answer: &Answer) -> Option<String> {
    if answer.words[0] != 0 {
        return None;
    }
    let (tokens, rows) = (&case.tokens, &answer.rows);
    let mut leftmost: Vec<u32> = vec![];
    for (number, row) in rows.chunks(ROW).enumerate() {
        let fits = token_fits(tokens, row)
            && blocks_fit(tokens, row, rows)
            && part_fits(tokens, row, &leftmost);
        leftmost.push(leftmost_place(row, rows, &leftmost));
        if !fits {
            return Some(format!("row {}: a place doesn't fit: {:?}", number, row));
        }
    }
    // A script's root is placed at 0 without an opener there.
    let script = case.entry == Entry::Script;
    let read = &rows[..rows.len() - if script { ROW } else { 0 }];
    let (from, to) = (case.first_place(), answer.words[3] as usize);
    let grouped = groups::fit(tokens, read, &leftmost, from, to);
    (!grouped).then(|| "grouped marks don't fit the brackets".into())
}

/// The lowest place in a row's tree. Children stand before their parents, so theirs are known.
fn leftmost_place(row: &[u32], rows: &[u32], known: &[u32]) -> u32 {
    let mut lowest = row[2];
    for &child in &row[CHILDREN] {
        let mut reference = child as usize;
        while reference != 0 {
            lowest = lowest.min(known[reference - 1]);
            reference = rows[(reference - 1) * ROW + NEXT] as usize;
        }
    }
    lowest
}

/// The token at a row's place is one that this kind of row is placed at.
fn token_fits(tokens: &[u16], row: &[u32]) -> bool {
    let word = tokens[row[2] as usize];
    let mark = (row[1] % GROUPED) as usize;
    match row[0] {
        kinds::NONE => word == words::NONE,
        IDENTIFIER | NAME | ATTRIBUTE | VAR | CONST | FUNCTION => word == words::IDENTIFIER,
        INT => word == words::INTEGER,
        kinds::FLOAT => word == words::FLOAT,
        kinds::CHAR => word == words::CHAR,
        STRING => word == words::STR,
        BOOL => word == [words::FALSE, words::TRUE][mark],
        ARRAY | INDEX => word == words::LBOX,
        HASH => word == words::LBRACE,
        CALL => word == words::LPAREN,
        INFIX => word == words::INFIXES[mark],
        PREFIX => word == words::PREFIXES[mark],
        SUFFIX => word == words::SUFFIXES[mark],
        PAIR => word == words::COLON,
        SHELL => word == words::DOLLAR,
        EXPRESSION | BLOCK => true,
        kind => Some(word) == keyword_of(kind),
    }
}

/// The keyword that a row of this kind is placed at.
fn keyword_of(kind: u32) -> Option<u16> {
    Some(match kind {
        LAMBDA => words::LAMBDA,
        BREAK => words::BREAK,
        CONTINUE => words::CONTINUE,
        RETURN => words::RETURN,
        THROW => words::THROW,
        TRY => words::TRY,
        FOR => words::FOR,
        WHILE => words::WHILE,
        ASSERT => words::ASSERT,
        IF => words::IF,
        FOREACH => words::FOREACH,
        _ => return None,
    })
}

/// The blocks of a statement: the child slot, the token before the block (EOF: any), and
/// whether its opener must be a brace in either mode.
pub fn blocks_of(kind: u32) -> &'static [(usize, u16, bool)] {
    match kind {
        FUNCTION => &[(1, words::RPAREN, true)],
        IF => &[(1, words::RPAREN, true), (2, words::ELSE, true)],
        WHILE => &[(1, words::RPAREN, false)],
        FOR => &[(2, words::IMPL, true)],
        FOREACH => &[(3, words::IMPL, false)],
        TRY => &[(0, words::TRY, true), (2, words::EOF, true), (3, words::FINALLY, false)],
        _ => &[],
    }
}

/// Each block of a statement stands where its opener is.
fn blocks_fit(tokens: &[u16], row: &[u32], rows: &[u32]) -> bool {
    blocks_of(row[0]).iter().all(|&(slot, before, braced)| {
        let reference = row[CHILDREN][slot] as usize;
        if reference == 0 {
            return true;
        }
        let place = rows[(reference - 1) * ROW + 2] as usize;
        place > 0
            && (before == words::EOF || tokens[place - 1] == before)
            && (!braced || tokens[place] == words::LBRACE)
    })
}

/// The child that begins right behind a row's place, and how many tokens behind it.
fn part_behind(row: &[u32]) -> Option<(usize, u32)> {
    Some(match row[0] {
        EXPRESSION | ATTRIBUTE => (0, 0),
        PREFIX | LAMBDA | ARRAY | HASH | RETURN | THROW | TRY | FOR | ASSERT | FOREACH => (0, 1),
        VAR | CONST | FUNCTION | IF | WHILE => (0, 2),
        INFIX | INDEX | CALL | PAIR => (1, 1),
        SHELL => (0, 1 + row[1] % GROUPED),
        _ => return None,
    })
}

/// That child begins there, with nothing between but the words that no row is placed at.
fn part_fits(tokens: &[u16], row: &[u32], leftmost: &[u32]) -> bool {
    let Some((slot, distance)) = part_behind(row) else {
        return true;
    };
    let reference = row[CHILDREN][slot] as usize;
    if reference == 0 {
        return true;
    }
    let skipped = [words::LPAREN, words::THREAD, words::ASYNC];
    let (from, to) = (row[2] + distance, leftmost[reference - 1]);
    let between = tokens.get(from as usize..to as usize);
    between.is_some_and(|between| between.iter().all(|word| skipped.contains(word)))
}
