//! Damage: small random changes to an array of words, and arrays of random words.
use super::rng::Rng;
use crate::words::*;

/// Words that change a script's shape more often than a word picked from all.
const SHAPERS: [u16; 14] = [
    SEMICOLON, LPAREN, RPAREN, LBRACE, RBRACE, LBOX, RBOX, COMMA, DOT, IMPL, COLON, EMPTY,
    IDENTIFIER, EQ,
];

/// Changes `words` (without EOF) in one to three places.
pub fn damage(rng: &mut Rng, words: &mut Vec<u16>, all: &[u16]) {
    for _ in 0..1 + rng.below(3) {
        let at = rng.below(words.len() + 1);
        let word = any_word(rng, all);
        if at == words.len() {
            words.push(word);
            continue;
        }
        match rng.below(7) {
            0 => words.truncate(at),
            1 | 2 => {
                words.remove(at);
            }
            3 => {
                let other = rng.below(words.len());
                words.swap(at, other);
            }
            4 => words[at] = word,
            5 => words.insert(at, word),
            _ => drop(words.splice(at..at, vec![SEMICOLON; 1 + rng.below(3)])),
        }
    }
}

/// A random word, every other time one of the shapers.
pub fn any_word(rng: &mut Rng, all: &[u16]) -> u16 {
    if rng.chance(1, 2) {
        rng.pick(&SHAPERS)
    } else {
        rng.pick(all)
    }
}

/// Up to fifteen random words.
pub fn noise(rng: &mut Rng, all: &[u16]) -> Vec<u16> {
    let length = rng.below(16);
    (0..length).map(|_| any_word(rng, all)).collect()
}
