//! Whether grouped marks fit the brackets, which the original's tree doesn't hold.
use crate::kinds::*;
use crate::model::ROW;
use crate::words;

/// What is known of the token at one place.
#[derive(Clone, Default)]
struct Place {
    /// The bracket here belongs to a call, a statement's head or a block.
    taken: bool,
    /// Brackets that surely, or possibly, open a group whose first token is here.
    sure: usize,
    possible: usize,
    /// Grouped rows whose first token is here.
    rows: usize,
}

/// Each bracket that isn't taken opens a group, and each grouped row has a bracket before it.
/// `leftmost` has the first place of each row's tree; `from` and `to` bound what was read.
pub fn fit(tokens: &[u16], rows: &[u32], leftmost: &[u32], from: usize, to: usize) -> bool {
    let mut places = vec![Place::default(); tokens.len()];
    for (row, &left) in rows.chunks(ROW).zip(leftmost) {
        if let Some(place) = bracket_of(row) {
            places[place].taken = true;
        }
        places[left as usize].rows += (row[1] >= GROUPED) as usize;
    }
    count_openers(tokens, &mut places, from, to);
    places.iter().all(|place| place.rows <= place.possible && (place.sure == 0 || place.rows > 0))
}

/// The place of the bracket that a row of this kind has for itself, if it has one.
fn bracket_of(row: &[u32]) -> Option<usize> {
    match row[0] {
        CALL | BLOCK => Some(row[2] as usize),
        IF | WHILE | FUNCTION => Some(row[2] as usize + 1),
        _ => None,
    }
}

/// Counts the brackets that open groups at the first token behind them. One behind a semicolon
/// is only possible, as it may be the token that closes a call.
fn count_openers(tokens: &[u16], places: &mut [Place], from: usize, to: usize) {
    let mut first = to;
    for place in (from..=to).rev() {
        let word = tokens[place];
        if ![words::LPAREN, words::THREAD, words::ASYNC].contains(&word) {
            first = place;
        } else if word == words::LPAREN && !places[place].taken {
            let closer = place > from && tokens[place - 1] == words::SEMICOLON;
            places[first].possible += 1;
            places[first].sure += !closer as usize;
        }
    }
}
