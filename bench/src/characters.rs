//! Characters by chance, by the bytes that they take in UTF-8.
use crate::chance::Chance;

/// The first number of one to four bytes, and the first behind them all.
const FIRST: [u32; 5] = [0, 0x80, 0x800, 0x1_0000, 0x11_0000];

/// A character of so many bytes, 1 to 4.
pub fn character(chance: &mut Chance, bytes: usize) -> char {
    let (from, to) = (FIRST[bytes - 1], FIRST[bytes]);
    loop {
        let number = from + chance.below((to - from) as usize) as u32;
        // A surrogate is no character.
        if let Some(character) = char::from_u32(number) {
            return character;
        }
    }
}
