//! Texts of five kinds and any size, made by chance from fixed seeds.
use crate::chance::Chance;
use crate::characters::character;

/// The kinds of texts.
#[derive(Clone, Copy, Debug, PartialEq)]
pub enum Text {
    /// Characters of one byte each, and so on.
    Ascii,
    Two,
    Three,
    Four,
    /// Words of a report in a European language.
    Mixed,
}

impl Text {
    pub const ALL: [Text; 5] = [Text::Ascii, Text::Two, Text::Three, Text::Four, Text::Mixed];

    pub fn name(self) -> &'static str {
        match self {
            Text::Ascii => "ascii",
            Text::Two => "two",
            Text::Three => "three",
            Text::Four => "four",
            Text::Mixed => "mixed",
        }
    }

    fn character(self, chance: &mut Chance) -> char {
        match self {
            Text::Ascii => character(chance, 1),
            Text::Two => character(chance, 2),
            Text::Three => character(chance, 3),
            Text::Four => character(chance, 4),
            Text::Mixed => of_report(chance),
        }
    }
}

/// What a report has of two bytes, and of three.
const ACCENTED: [char; 12] = ['é', 'è', 'à', 'ç', 'ä', 'ö', 'ü', 'ß', 'ñ', 'ø', 'µ', '°'];
const SIGNS: [char; 6] = ['–', '“', '”', '„', '€', '…'];

/// What is escaped in a JSON string, some with a short form and some without.
const ESCAPED: [char; 8] = ['"', '\\', '\n', '\n', '\t', '\r', '\u{1}', '\u{1b}'];

/// A text of exactly so many bytes; where a character is too long for what is left, a blank stands. Another number
/// gives another text.
pub fn text(kind: Text, bytes: usize, number: u64) -> String {
    let mut chance = Chance::new(number);
    let mut text = String::with_capacity(bytes);
    while text.len() < bytes {
        let next = kind.character(&mut chance);
        let fits = next.len_utf8() <= bytes - text.len();
        text.push(if fits { next } else { ' ' });
    }
    text
}

/// A small letter.
pub fn letter(chance: &mut Chance) -> char {
    (b'a' + chance.below(26) as u8) as char
}

/// A character of a report: one in ten has two bytes, one in two hundred three.
pub fn of_report(chance: &mut Chance) -> char {
    match chance.below(200) {
        0 => SIGNS[chance.below(SIGNS.len())],
        1..=20 => ACCENTED[chance.below(ACCENTED.len())],
        21..=50 => ' ',
        _ => letter(chance),
    }
}

/// The same, but that one in twenty must be escaped in a JSON string.
pub fn of_quoted_report(chance: &mut Chance) -> char {
    match chance.below(20) {
        0 => ESCAPED[chance.below(ESCAPED.len())],
        _ => of_report(chance),
    }
}
