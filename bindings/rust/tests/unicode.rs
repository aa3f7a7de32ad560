//! The file reader beside another strict decoder, that of Rust's standard library: of each payload, whether it is Unicode.
//! A small part is run each time; `tools/compare-unicode` runs all.
mod common;
use common::field;
use shigthapul::{read_file, Reason, Refusal, Token};

// Shared with the bench.
#[path = "../../../bench/src/chance.rs"]
mod chance;
#[path = "../../../bench/src/characters.rs"]
mod characters;

use chance::Chance;
use characters::character;

const TEXTS: [Token; 3] = [Token::Str, Token::Identifier, Token::Unknown];

/// The ends of the ranges in Table 3-7 of the Unicode Standard.
const ENDS: [u8; 20] = [
    0x00, 0x7F, 0x80, 0x8F, 0x90, 0x9F, 0xA0, 0xBF, 0xC2, 0xDF, 0xE0, 0xE1, 0xEC, 0xED, 0xEE, 0xEF,
    0xF0, 0xF1, 0xF3, 0xF4,
];

/// What the buffer has in it before it is lent.
const DIRT: u16 = 0xBEEF;

/// What the longest file has beside the payload: an Empty field, the payload's head, and EOF.
const AROUND: usize = 9;
const MOST: usize = 60_000;

/// How many differences of a part are shown.
const SHOWN: u64 = 3;

/// What was compared, and how many of it both take for Unicode.
#[derive(Default)]
struct Comparison {
    compared: u64,
    unicode: u64,
    differing: u64,
}

impl Comparison {
    /// Compares what both say to a payload: the reader's answer with its place, and every word of its buffer.
    fn ask(&mut self, token: Token, payload: &[u8]) {
        let good = is_unicode(token, payload);
        let words = [Token::Empty, token, Token::EOF].map(Token::word);
        let refusal = Refusal { reason: Reason::NotUnicode, place: 1 };
        let expected =
            if good { (Ok(3), [words[0], words[1], words[2], 0]) } else { (Err(refusal), [0; 4]) };
        let found = read(token, payload);
        self.compared += 1;
        self.unicode += u64::from(good);
        if found != expected {
            self.differing += 1;
            if self.differing <= SHOWN {
                let start = &payload[..payload.len().min(8)];
                println!("{:?} {:02X?}, {} bytes: {:?}", token, start, payload.len(), found);
            }
        }
    }

    /// Every payload of up to so many bytes.
    fn short(&mut self, token: Token, most: u32) {
        for length in 0..=most {
            for number in 0..1_u32 << (8 * length) {
                self.ask(token, &number.to_be_bytes()[4 - length as usize..]);
            }
        }
    }

    /// Every payload of four of some bytes, alone, and with an ASCII byte in front or behind.
    fn fours(&mut self, token: Token, bytes: &[u8]) {
        for number in 0..bytes.len().pow(4) {
            let digit = |place| bytes[number / bytes.len().pow(place) % bytes.len()];
            let payload = [b'a', digit(3), digit(2), digit(1), digit(0), b'z'];
            self.ask(token, &payload[1..5]);
            self.ask(token, &payload[..5]);
            self.ask(token, &payload[1..]);
        }
    }

    /// Texts by chance of at most so many bytes: each as it is, with a byte changed, cut, and with a byte left out.
    fn texts(&mut self, token: Token, count: u64, most: usize) {
        for number in 0..count {
            let chance = &mut Chance::new(number);
            let text = text(chance, most);
            let (at, byte) = (chance.below(text.len()), chance.below(256) as u8);
            self.ask(token, &text);
            self.ask(token, &text[..at]);
            self.ask(token, &[&text[..at], &[byte], &text[at + 1..]].concat());
            self.ask(token, &[&text[..at], &text[at + 1..]].concat());
        }
    }

    /// Some numbers as characters.
    fn characters(&mut self, numbers: impl Iterator<Item = u32>) {
        for number in numbers {
            self.ask(Token::Char, &number.to_be_bytes());
        }
    }
}

/// What the standard library says.
fn is_unicode(token: Token, payload: &[u8]) -> bool {
    match (token, payload) {
        (Token::Char, &[a, b, c, d]) => char::from_u32(u32::from_be_bytes([a, b, c, d])).is_some(),
        _ => std::str::from_utf8(payload).is_ok(),
    }
}

/// What the reader says to a file with the payload in its second field: the count of fields or the refusal, and its words.
fn read(token: Token, payload: &[u8]) -> (Result<usize, Refusal>, [u16; 4]) {
    let file = [&[1, 0, 0], &field(token, payload)[..], &[2, 0, 0]].concat();
    let mut words = [DIRT; 4];
    (read_file(&file, &mut words).map(|read| read.len()), words)
}

/// A text of at least one byte and at most so many.
fn text(chance: &mut Chance, most: usize) -> Vec<u8> {
    let (length, widest) = (1 + chance.below(most), 1 + chance.below(4));
    let mut text = String::new();
    while text.len() < length {
        let width = 1 + chance.below(widest.min(length - text.len()));
        text.push(character(chance, width));
    }
    text.into_bytes()
}

/// The ends of the ranges, and the bytes beside them.
fn ends() -> Vec<u8> {
    let beside = |&end: &u8| [end.wrapping_sub(1), end, end.wrapping_add(1)];
    let mut bytes: Vec<u8> = ENDS.iter().flat_map(beside).collect();
    bytes.sort_unstable();
    bytes.dedup();
    bytes
}

/// Numbers above those that are tried one by one: ends that are good without the high byte, and all that are beside a power
/// of two.
fn high_numbers() -> impl Iterator<Item = u32> {
    let good = [0, 0x41, 0xD7FF, 0xE000, 0x10_FFFF];
    let low = (1..=0xFF).flat_map(move |high| good.map(|good| high << 24 | good));
    let powers = (21..32).flat_map(|bit| [(1 << bit) - 1, 1 << bit, (1 << bit) + 1]);
    low.chain(powers).chain([u32::MAX])
}

#[test]
fn a_small_part() {
    let mut all = Comparison::default();
    for token in TEXTS {
        all.short(token, 1);
        all.fours(token, &[0x7F, 0x80, 0x8F, 0x90, 0xBF, 0xED, 0xF0, 0xF4]);
        all.texts(token, 300, 40);
    }
    all.short(Token::Str, 2);
    all.texts(Token::Str, 3, MOST - AROUND);
    all.characters((0xD700..0xE100).chain(0x10_FF00..0x11_0100).chain(high_numbers()));
    assert_eq!(all.differing, 0, "of {} compared", all.compared);
}

/// Runs a part, and tells what was found.
fn part(all: &mut Comparison, name: String, compare: impl FnOnce(&mut Comparison)) {
    let mut found = Comparison::default();
    compare(&mut found);
    let Comparison { compared, unicode, differing } = found;
    println!(
        "{}: {} compared, {} of them Unicode, {} differing",
        name, compared, unicode, differing
    );
    all.compared += compared;
    all.differing += differing;
}

#[test]
#[ignore = "takes minutes; tools/compare-unicode runs it"]
fn all_of_it() {
    let (mut all, ends) = (Comparison::default(), ends());
    for token in TEXTS {
        let name = |what| format!("{:?}, {}", token, what);
        part(&mut all, name("every payload of up to three bytes"), |found| found.short(token, 3));
        part(&mut all, name("four bytes at ends of ranges"), |found| found.fours(token, &ends));
        part(&mut all, name("texts of up to 60 bytes"), |found| found.texts(token, 100_000, 60));
        part(&mut all, name("long texts"), |found| found.texts(token, 300, MOST - AROUND));
    }
    part(&mut all, "Char, every number to 1FFFFF".into(), |found| found.characters(0..0x20_0000));
    part(&mut all, "Char, numbers above".into(), |found| found.characters(high_numbers()));
    println!("{} compared, {} differing", all.compared, all.differing);
    assert_eq!(all.differing, 0);
}
