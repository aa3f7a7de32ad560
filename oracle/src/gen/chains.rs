//! Operator chains: values with infix operators between them, and what may follow.
use super::rng::Rng;
use crate::words::*;

/// A chain of `count` values; operators come from the whole list or from a rising ladder.
pub fn chain(rng: &mut Rng) -> Vec<u16> {
    let count = match rng.below(10) {
        0 => 1,
        1..=6 => 2 + rng.below(5),
        7 | 8 => 7 + rng.below(12),
        _ => 20 + rng.below(60),
    };
    let mut words = vec![rng.pick(&VALUES)];
    for _ in 1..count {
        words.push(rng.pick(&INFIXES));
        words.push(rng.pick(&VALUES));
    }
    words
}

/// One operator of each order, rising, so that every value opens one more expression.
const LADDER: [u16; 9] = [EQ, LOR, LAND, OR, AND, EEQ, LT, PLUS, MUL];

/// The chain that opens ten expressions at once, `times` times over.
pub fn ladder(times: usize) -> Vec<u16> {
    let mut words = vec![IDENTIFIER];
    for &operator in LADDER.iter().cycle().take(LADDER.len() * times) {
        words.extend([operator, IDENTIFIER]);
    }
    words
}

/// What may come behind a chain: nothing, semicolons, or tokens of order Zero and others.
pub fn tail(rng: &mut Rng, all: &[u16]) -> Vec<u16> {
    let mut words = vec![SEMICOLON; [0, 0, 1, 1, 2, 3][rng.below(6)]];
    if rng.chance(1, 2) {
        words.push(rng.pick(all));
    }
    if rng.chance(1, 4) {
        words.push(rng.pick(&VALUES));
    }
    words
}
