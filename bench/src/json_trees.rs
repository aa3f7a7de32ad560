//! Trees with the token files that their payloads are in, for JSON texts; made by chance from fixed seeds.
use crate::chance::Chance;
use crate::files::{self, field};
use crate::readers::ROW;
use crate::texts;
use crate::trees::{self, Shape};
use crate::words::*;

/// A tree in a pool of just its rows, its root the last, and the file with its payloads.
pub struct Tree {
    pub pool: Vec<u32>,
    pub file: Vec<u8>,
}

impl Tree {
    pub fn rows(&self) -> usize {
        self.pool.len() / ROW
    }
}

/// The most characters of a string in a tree of texts.
const TEXT: usize = 400;

/// Where in its row the place stands.
const PLACE: usize = 2;

/// A tree of a shape and of exactly `rows` rows. As long as the file has room each row has a field of its own, as if it
/// was read from there; behind that, payloads are those of other rows. Another number gives another tree.
pub fn tree(shape: Shape, rows: usize, number: u64) -> Tree {
    let mut pool = trees::tree(shape, rows, number);
    let mut maker = Maker::new(shape, number);
    for row in pool.chunks_exact_mut(ROW) {
        if let Some(place) = maker.place(row[0]) {
            row[PLACE] = place;
        }
    }
    Tree { pool, file: maker.file }
}

/// The word of the field that a kind's payload is in, by the numbers of document 01.
fn word_of(kind: u32) -> Option<u16> {
    match kind {
        2 | 18 | 34 | 35 | 40 => Some(IDENTIFIER),
        3 => Some(INTEGER),
        4 => Some(FLOAT),
        5 => Some(CHAR),
        6 => Some(STR),
        _ => None,
    }
}

/// A file under way.
struct Maker {
    shape: Shape,
    chance: Chance,
    file: Vec<u8>,
    /// The word of each field.
    words: Vec<u16>,
    /// Whether a field had no room.
    full: bool,
}

impl Maker {
    fn new(shape: Shape, number: u64) -> Maker {
        Maker { shape, chance: Chance::new(number), file: vec![], words: vec![], full: false }
    }

    /// A place for a row of a kind; none where any will do.
    fn place(&mut self, kind: u32) -> Option<u32> {
        match word_of(kind) {
            Some(word) => self.add(word).or_else(|| Some(self.find(word))),
            None => self.add(SEMICOLON),
        }
    }

    /// Adds a field as long as they fit.
    fn add(&mut self, word: u16) -> Option<u32> {
        if self.full {
            return None;
        }
        let bytes = field(word, &self.payload(word));
        self.full = self.file.len() + bytes.len() > files::MOST;
        if self.full {
            return None;
        }
        self.file.extend(bytes);
        self.words.push(word);
        Some(self.words.len() as u32 - 1)
    }

    /// A field that has a word, the next from any place on.
    fn find(&mut self, word: u16) -> u32 {
        let count = self.words.len();
        let from = self.chance.below(count);
        let mut places = (from..count).chain(0..from);
        places.find(|&place| self.words[place] == word).expect("a full file has all words") as u32
    }

    fn payload(&mut self, word: u16) -> Vec<u8> {
        if self.shape == Shape::Texts && word == STR {
            let characters = 1 + self.chance.below(TEXT);
            return files::line(&mut self.chance, characters, texts::of_quoted_report);
        }
        files::payload(word, &mut self.chance)
    }
}
