//! Token files by document 01: their fields, and what the printing program writes to them.
pub mod examples;

use crate::batch::{Answer, Case};
use crate::compare::{summary, words_of};
use crate::model::{Entry, ROW};
use crate::words;

/// The limits of the printing program: bytes of a file, rows.
pub const MOST_BYTES: usize = 60_000;
pub const MOST_ROWS: usize = 1_800;

/// The bytes of a field in front of its payload.
pub const HEAD: usize = 3;

/// The refusals of a file.
pub const BAD_FIELD: u32 = 5;
pub const TOO_LONG: u32 = 6;
pub const NOT_UNICODE: u32 = 33;

/// The classes whose payload must be Unicode: that of characters, and those of texts.
pub const CHARACTER: u16 = 6;
pub const TEXTS: [u16; 3] = [4, 7, 10];

/// The payload's length for a class; None where any is right.
fn length_of(class: u16) -> Option<usize> {
    match class {
        words::OPERATOR | words::KEYWORD => Some(1),
        3 | 5 => Some(8),
        CHARACTER => Some(4),
        text if TEXTS.contains(&text) => None,
        _ => Some(0),
    }
}

/// A field of a file.
#[derive(Clone, Copy, Debug)]
pub struct Field<'a> {
    pub class: u16,
    pub payload: &'a [u8],
}

impl Field<'_> {
    /// Its token word.
    fn word(self) -> u16 {
        let coded = self.class == words::OPERATOR || self.class == words::KEYWORD;
        let code = if coded { u16::from(self.payload[0]) } else { 0 };
        self.class << 8 | code
    }
}

/// The fields of a file; or the number and place of its refusal.
pub fn fields(file: &[u8]) -> Result<Vec<Field<'_>>, (u32, u32)> {
    if file.len() > MOST_BYTES {
        return Err((TOO_LONG, 0));
    }
    let (mut rest, mut found) = (file, vec![]);
    while !rest.is_empty() {
        let (field, behind) = first_field(rest).map_err(|number| (number, found.len() as u32))?;
        found.push(field);
        rest = behind;
    }
    Ok(found)
}

/// The words of a file's fields; or its refusal.
fn words_in(file: &[u8]) -> Result<Vec<u16>, (u32, u32)> {
    Ok(fields(file)?.into_iter().map(Field::word).collect())
}

/// The first field and what follows it; or the number of its refusal.
fn first_field(file: &[u8]) -> Result<(Field<'_>, &[u8]), u32> {
    let (field, behind) = parts(file).ok_or(BAD_FIELD)?;
    if !is_unicode(field) {
        return Err(NOT_UNICODE);
    }
    Ok((field, behind))
}

/// The first field, and what follows it; None if it is cut short or not a right one.
fn parts(file: &[u8]) -> Option<(Field<'_>, &[u8])> {
    let head = file.get(..HEAD)?;
    let class = u16::from(head[0]);
    let length = usize::from(u16::from_be_bytes([head[1], head[2]]));
    if class >= words::CLASSES || length_of(class).is_some_and(|right| right != length) {
        return None;
    }
    let payload = file.get(HEAD..HEAD + length)?;
    Some((Field { class, payload }, &file[HEAD + length..]))
}

/// Whether a payload is Unicode where its class asks for that, by Rust's own library.
fn is_unicode(field: Field) -> bool {
    match field.class {
        CHARACTER => char::from_u32(number(field.payload)).is_some(),
        text if TEXTS.contains(&text) => std::str::from_utf8(field.payload).is_ok(),
        _ => true,
    }
}

/// The number that four bytes are, the high one first.
pub fn number(payload: &[u8]) -> u32 {
    payload.iter().fold(0, |number, &byte| number << 8 | u32::from(byte))
}

/// The field of a word, with a payload of `text` bytes where any length is right.
pub fn field(word: u16, text: &[u8]) -> Vec<u8> {
    let class = words::class(word);
    match length_of(class) {
        Some(1) => tagged(class, &[word as u8]),
        Some(length) => tagged(class, &[0; 8][..length]),
        None => tagged(class, text),
    }
}

/// A field of a class with any payload.
pub fn tagged(class: u16, payload: &[u8]) -> Vec<u8> {
    let length = (payload.len() as u16).to_be_bytes();
    [&[class as u8], &length[..], payload].concat()
}

/// What the printing program writes to a file.
pub fn outline(file: &[u8]) -> String {
    match words_in(file) {
        Err((number, place)) => format!("no {} {}\n", number, place),
        Ok(tokens) => {
            let pool = MOST_ROWS * ROW;
            lines(&Case::old(Entry::Script, 0, pool, tokens).answer())
        }
    }
}

/// An answer's first line, and a line for each row.
fn lines(answer: &Answer) -> String {
    let mut text = summary(answer) + "\n";
    for row in answer.row_arrays() {
        text += &(words_of(Some(&row)) + "\n");
    }
    text
}

#[cfg(test)]
mod tests {
    use super::*;
    use crate::words::*;

    fn file(words: &[u16]) -> Vec<u8> {
        words.iter().flat_map(|&word| field(word, b"ab")).collect()
    }

    #[test]
    fn the_worked_example() {
        let example = [7, 0, 1, 97, 8, 0, 1, 1, 7, 0, 1, 98, 8, 0, 1, 3, 7, 0, 1, 99, 2, 0, 0];
        let lines = [
            "ok 7 7 5",
            "2 0 0 0 0 0 0 0 0",
            "2 0 2 0 0 0 0 0 2",
            "2 0 4 0 0 0 0 0 4",
            "12 2 3 2 3 0 0 0 4",
            "12 0 1 1 4 0 0 0 4",
            "38 0 0 5 0 0 0 0 4",
            "46 0 0 6 0 0 0 0 5\n",
        ];
        assert_eq!(outline(&example), lines.join("\n"));
    }

    #[test]
    fn every_word_comes_back() {
        let all = all_but_eof();
        assert_eq!(words_in(&file(&all)), Ok(all));
    }

    #[test]
    fn refusals_in_their_order() {
        assert_eq!(outline(&[]), "no 1 0\n");
        assert_eq!(outline(&[2]), "no 5 0\n");
        assert_eq!(outline(&[2, 0, 0, 11, 0, 0]), "no 5 1\n");
        assert_eq!(outline(&[2, 0, 1, 0]), "no 5 0\n");
        assert_eq!(outline(&[8, 0, 1, 41, 2, 0, 0]), "no 1 0\n");
        assert_eq!(outline(&[8, 0, 1, 41, 4, 0, 1, 0xFF]), "no 33 1\n");
        assert_eq!(outline(&[4, 0, 1, 0xFF, 11, 0, 0]), "no 33 0\n");
        assert_eq!(outline(&[4, 0, 2, 0xFF]), "no 5 0\n");
        assert_eq!(outline(&[11; MOST_BYTES + 1]), "no 6 0\n");
        assert_eq!(outline(&[11; MOST_BYTES]), "no 5 0\n");
    }

    #[test]
    fn only_characters_and_texts_must_be_unicode() {
        let with =
            |class, payload: &[u8]| outline(&[tagged(class, payload), field(EOF, b"")].concat());
        for class in TEXTS {
            assert_eq!(with(class, &[0xC3]), "no 33 0\n");
            assert!(!with(class, "\u{E9}\u{20AC}\u{1F600}".as_bytes()).starts_with("no 33"));
        }
        assert_eq!(with(CHARACTER, &[0, 0, 0xD8, 0]), "no 33 0\n");
        assert!(with(CHARACTER, &[0, 0, 0xE0, 0]).starts_with("ok 3 3 1\n"));
        assert!(with(3, &[0xFF; 8]).starts_with("ok 3 3 1\n"));
        assert!(with(5, &[0xFF; 8]).starts_with("ok 3 3 1\n"));
    }

    #[test]
    fn rows_run_out() {
        let names = |count| file(&[vec![IDENTIFIER; count], vec![EOF]].concat());
        assert!(outline(&names(899)).starts_with("ok 1799 1799 899\n"));
        assert_eq!(outline(&names(900)), "no 3 900\n");
        let breaks = |count| file(&[[BREAK, SEMICOLON].repeat(count), vec![EOF]].concat());
        assert!(outline(&breaks(1799)).starts_with("ok 1800 1800 3598\n"));
        assert_eq!(outline(&breaks(1800)), "no 3 3600\n");
    }
}
