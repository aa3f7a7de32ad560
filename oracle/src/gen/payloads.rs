//! Payloads of token files: characters and texts, many of them at the ends of Unicode's ranges, and
//! what is neither.
use super::rng::Rng;

/// The ends of the ranges of characters that are encoded alike, by Tables 3-6 and 3-7 of the Unicode
/// Standard.
const ENDS: [u32; 18] = [
    0x00, 0x7F, 0x80, 0x7FF, 0x800, 0xFFF, 0x1000, 0xCFFF, 0xD000, 0xD7FF, 0xE000, 0xFFFF,
    0x1_0000, 0x3_FFFF, 0x4_0000, 0xF_FFFF, 0x10_0000, 0x10_FFFF,
];

/// The first numbers that are too large for characters of one to four bytes.
const LIMITS: [usize; 4] = [0x80, 0x800, 0x1_0000, 0x11_0000];

/// Bytes around the ends of leads and tails.
const BYTES: [u8; 18] = [
    0x00, 0x7F, 0x80, 0x8F, 0x90, 0x9F, 0xA0, 0xBF, 0xC0, 0xC1, 0xC2, 0xE0, 0xED, 0xF0, 0xF4, 0xF5,
    0xF8, 0xFF,
];

/// A character; half of them are of ASCII.
pub fn character(rng: &mut Rng) -> char {
    loop {
        let value = match rng.below(4) {
            0 => near(rng, &ENDS),
            1 => below(rng, &LIMITS),
            _ => u32::from(b' ') + rng.below(95) as u32,
        };
        if let Some(one) = char::from_u32(value) {
            return one;
        }
    }
}

/// A number that is no character: a surrogate, too large, or a character's low byte first.
pub fn no_character(rng: &mut Rng) -> u32 {
    loop {
        let value = match rng.below(3) {
            0 => near(rng, &[0xD800, 0xDBFF, 0xDC00, 0xDFFF]),
            1 => near(rng, &[0x11_0000, 0x1F_FFFF, u32::MAX]),
            _ => u32::from(character(rng)).swap_bytes(),
        };
        if char::from_u32(value).is_none() {
            return value;
        }
    }
}

/// A number that is at most two away from one of some.
fn near(rng: &mut Rng, ends: &[u32]) -> u32 {
    rng.pick(ends).wrapping_add(rng.below(5) as u32).wrapping_sub(2)
}

/// A number below one of some limits.
fn below(rng: &mut Rng, limits: &[usize]) -> u32 {
    let limit = rng.pick(limits);
    rng.below(limit) as u32
}

/// A text of fewer than `most` characters.
pub fn text(rng: &mut Rng, most: usize) -> Vec<u8> {
    let length = rng.below(most);
    (0..length).map(|_| character(rng)).collect::<String>().into_bytes()
}

/// Bytes that are no text, mostly with text around what isn't.
pub fn no_text(rng: &mut Rng) -> Vec<u8> {
    loop {
        let bytes = [text(rng, 4), wrong(rng), text(rng, 4)].concat();
        if std::str::from_utf8(&bytes).is_err() {
            return bytes;
        }
    }
}

/// Two payloads, the second of which begins with the rest of a character of the first.
pub fn halves(rng: &mut Rng) -> [Vec<u8>; 2] {
    let mut first = sequence(rng);
    let rest = first.split_off(1 + rng.below(first.len() - 1));
    [[text(rng, 4), first].concat(), [rest, text(rng, 4)].concat()]
}

/// A character of two to four bytes.
fn sequence(rng: &mut Rng) -> Vec<u8> {
    loop {
        let one = character(rng);
        if one.len_utf8() > 1 {
            return one.to_string().into_bytes();
        }
    }
}

/// Bytes that are mostly no character: too long a form, a surrogate, too large a number, a character
/// that is cut short or has a byte changed, or any bytes behind 7F.
fn wrong(rng: &mut Rng) -> Vec<u8> {
    match rng.below(6) {
        0 => {
            let shorter = rng.below(3);
            let value = below(rng, &LIMITS[shorter..=shorter]);
            form(value, shorter + 2)
        }
        1 => form(near(rng, &[0xD800, 0xDBFF, 0xDC00, 0xDFFF]), 3),
        2 => form(near(rng, &[0x11_0000, 0x13_FFFF, 0x14_0000, 0x1F_FFFF]), 4),
        3 => {
            let mut bytes = sequence(rng);
            bytes.truncate(1 + rng.below(bytes.len() - 1));
            bytes
        }
        4 => {
            let mut bytes = sequence(rng);
            let at = rng.below(bytes.len());
            bytes[at] = rng.pick(&BYTES);
            bytes
        }
        _ => (0..1 + rng.below(4)).map(|_| 0x80 + rng.below(0x80) as u8).collect(),
    }
}

/// The form of so many bytes, two to four, for any number.
fn form(value: u32, length: usize) -> Vec<u8> {
    let digit = |place: usize| (value >> (6 * place)) as u8 & 0x3F;
    let lead = [0xC0, 0xE0, 0xF0][length - 2] | digit(length - 1);
    let tails = (0..length - 1).rev().map(|place| 0x80 | digit(place));
    [lead].into_iter().chain(tails).collect()
}

#[cfg(test)]
mod tests {
    use super::*;
    use std::collections::BTreeSet;
    use std::str::from_utf8;

    #[test]
    fn texts_have_characters_of_each_length() {
        let mut rng = Rng::new(1);
        let texts = (0..300).map(|_| String::from_utf8(text(&mut rng, 9)).expect("a text"));
        let all: String = texts.collect();
        let lengths: BTreeSet<usize> = all.chars().map(char::len_utf8).collect();
        assert_eq!(lengths, BTreeSet::from([1, 2, 3, 4]));
        assert!(ENDS.iter().all(|&end| all.contains(char::from_u32(end).unwrap())));
    }

    #[test]
    fn what_is_no_text_breaks_off_in_each_way() {
        let mut rng = Rng::new(2);
        let faults = (0..300).map(|_| from_utf8(&no_text(&mut rng)).unwrap_err().error_len());
        let kinds: BTreeSet<Option<usize>> = faults.collect();
        assert_eq!(kinds, BTreeSet::from([None, Some(1), Some(2), Some(3)]));
    }

    #[test]
    fn no_character_is_one() {
        let mut rng = Rng::new(3);
        let values: BTreeSet<u32> = (0..500).map(|_| no_character(&mut rng)).collect();
        assert!(values.iter().all(|&value| char::from_u32(value).is_none()));
        assert!([0xD800, 0xDFFF, 0x11_0000, u32::MAX].iter().all(|end| values.contains(end)));
    }

    #[test]
    fn halves_are_a_text_together_only() {
        let mut rng = Rng::new(4);
        for _ in 0..300 {
            let [first, second] = halves(&mut rng);
            assert!(from_utf8(&first).is_err() && from_utf8(&second).is_err());
            assert!(from_utf8(&[first, second].concat()).is_ok());
        }
    }

    #[test]
    fn the_form_of_a_character_is_its_encoding() {
        for end in &ENDS[2..] {
            let one = char::from_u32(*end).unwrap();
            assert_eq!(form(*end, one.len_utf8()), one.to_string().into_bytes());
        }
    }
}
