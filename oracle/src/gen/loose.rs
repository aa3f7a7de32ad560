//! Loose texts: right ones in which signs that strict mode asks for are dropped or replaced.
use super::damage::any_word;
use super::rng::Rng;
use super::{enough, grammar, nesting};
use crate::batch::Case;
use crate::model::Entry;
use crate::signs;
use crate::words::EOF;

/// The words of a loose text for an entry, without EOF.
pub fn text(rng: &mut Rng, entry: Entry, all: &[u16]) -> Vec<u16> {
    loop {
        let mut words = right(rng, entry);
        let places = asked(&words, entry);
        if !places.is_empty() {
            loosen(rng, &mut words, &places, all);
            return words;
        }
    }
}

/// A text of every form; every fourth time a nest around the limit.
fn right(rng: &mut Rng, entry: Entry) -> Vec<u16> {
    if rng.chance(1, 4) {
        nesting::nest(rng, entry != Entry::Expression)
    } else {
        grammar::text(rng, entry)
    }
}

/// Where strict mode asks for signs in a text; nowhere if it isn't accepted.
fn asked(words: &[u16], entry: Entry) -> Vec<usize> {
    let tokens = [words, &[EOF]].concat();
    let case = Case::old(entry, 0, enough(&tokens), tokens);
    signs::places(&case, &case.answer())
}

/// Drops or replaces one to three of the signs at some places.
fn loosen(rng: &mut Rng, words: &mut Vec<u16>, places: &[usize], all: &[u16]) {
    let mut chosen: Vec<usize> = (0..1 + rng.below(3)).map(|_| rng.pick(places)).collect();
    chosen.sort_unstable();
    chosen.dedup();
    // From the last one on, so that the places before it stay.
    for place in chosen.into_iter().rev() {
        if rng.chance(1, 2) {
            words.remove(place);
        } else {
            words[place] = any_word(rng, all);
        }
    }
}
