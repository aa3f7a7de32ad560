//! Token files: the samples, and files of scripts and of texts, made by chance from fixed seeds.
use crate::chance::Chance;
use crate::characters::character;
use crate::scripts::{script, Kind};
use crate::texts::{self, text, Text};
use crate::words::*;
use std::ops::Range;

/// The most bytes of a file.
pub const MOST: usize = 60_000;

/// The sizes of the files that are made.
const SIZES: [usize; 3] = [MOST / 100, MOST / 10, MOST];

/// The bytes of a field's tag and length.
const HEAD: usize = 3;

/// What stands around a text in its file: its own head, and EOF.
pub const AROUND: usize = 2 * HEAD;

/// The samples that are accepted.
const SAMPLES: [&str; 5] = ["chain.tok", "label.tok", "report.tok", "thinning.tok", "unclosed.tok"];

/// The most letters of a name, and the most characters of a string.
const NAME: usize = 12;
const STRING: usize = 20;

/// What a file holds.
#[derive(Clone, Copy, Debug, PartialEq)]
pub enum Content {
    /// A sample, by its name.
    Sample(&'static str),
    Script(Kind),
    /// One string.
    Text(Text),
}

impl Content {
    /// Scripts, the samples first.
    pub fn scripts() -> Vec<Content> {
        let samples = SAMPLES.map(Content::Sample).into_iter();
        samples.chain(Kind::ALL.map(Content::Script)).collect()
    }

    pub fn texts() -> Vec<Content> {
        Text::ALL.map(Content::Text).to_vec()
    }

    pub fn name(self) -> &'static str {
        match self {
            Content::Sample(name) => name,
            Content::Script(kind) => kind.name(),
            Content::Text(kind) => kind.name(),
        }
    }

    pub fn named(name: &str) -> Option<Content> {
        let mut all = Content::scripts().into_iter().chain(Content::texts());
        all.find(|content| content.name() == name)
    }

    /// The files that are timed, by sizes: as many different ones of a size as have together the most bytes of a file.
    /// Of a sample there is one.
    pub fn files(self) -> Vec<(usize, Vec<File>)> {
        if let Content::Sample(_) = self {
            let file = self.file(MOST, 0);
            return vec![(file.bytes.len(), vec![file])];
        }
        let of_size = |size| (0..(MOST / size) as u64).map(move |number| self.file(size, number));
        SIZES.iter().map(|&size| (size, of_size(size).collect())).collect()
    }

    /// A file of at most so many bytes; with a text it has just so many. Another number gives another file, but for a
    /// sample.
    pub fn file(self, most: usize, number: u64) -> File {
        let file = match self {
            Content::Sample(name) => File::of_sample(name),
            Content::Script(kind) => File::of_script(kind, most, number),
            Content::Text(kind) => File::of_text(&text(kind, most - AROUND, number)),
        };
        assert!(file.bytes.len() <= most, "the file has {} bytes", file.bytes.len());
        file
    }
}

/// A token file, with the words that it is to be read as.
pub struct File {
    pub bytes: Vec<u8>,
    pub words: Vec<u16>,
    /// Where the bytes are that count: all, or a text without what stands around it.
    counted: Range<usize>,
}

impl File {
    /// The bytes that count.
    pub fn counted(&self) -> &[u8] {
        &self.bytes[self.counted.clone()]
    }

    fn new(bytes: Vec<u8>, words: Vec<u16>) -> File {
        File { counted: 0..bytes.len(), bytes, words }
    }

    fn of_sample(name: &str) -> File {
        let path = format!("{}/../samples/{}", env!("CARGO_MANIFEST_DIR"), name);
        let bytes = std::fs::read(&path).unwrap_or_else(|error| panic!("{}: {}", path, error));
        let words = words_of(&bytes);
        File::new(bytes, words)
    }

    /// The longest script found that fits: one with too many words is made again with fewer.
    fn of_script(kind: Kind, most: usize, number: u64) -> File {
        let mut count = most / HEAD;
        loop {
            let words = script(kind, count, number);
            let mut chance = Chance::new(number);
            let bytes = words.iter().flat_map(|&word| field(word, &payload(word, &mut chance)));
            let file = File::new(bytes.collect(), words);
            if file.bytes.len() <= most {
                return file;
            }
            count = count * most / file.bytes.len();
        }
    }

    fn of_text(text: &str) -> File {
        let bytes = [field(STR, text.as_bytes()), field(EOF, &[])].concat();
        File { counted: HEAD..bytes.len() - HEAD, bytes, words: vec![STR, EOF] }
    }
}

/// Whether the payload of a class is a code.
fn is_coded(class: u16) -> bool {
    class == OPERATOR || class == KEYWORD
}

pub fn field(word: u16, payload: &[u8]) -> Vec<u8> {
    let length = u16::try_from(payload.len()).expect("a length in two bytes").to_be_bytes();
    [&[class(word) as u8], &length[..], payload].concat()
}

/// A payload for a word.
pub fn payload(word: u16, chance: &mut Chance) -> Vec<u8> {
    match word {
        INTEGER => (chance.below(1_000_000) as i64).to_be_bytes().to_vec(),
        FLOAT => (chance.below(1_000_000) as f64 / 1000.0).to_be_bytes().to_vec(),
        CHAR => {
            let bytes = 1 + chance.below(4);
            u32::from(character(chance, bytes)).to_be_bytes().to_vec()
        }
        IDENTIFIER => {
            let letters = 1 + chance.below(NAME);
            line(chance, letters, texts::letter)
        }
        STR => string(chance),
        _ if is_coded(class(word)) => vec![word as u8],
        _ => vec![],
    }
}

/// A string; every fifth is from a report, so about every tenth has characters of two bytes or three.
fn string(chance: &mut Chance) -> Vec<u8> {
    let characters = chance.below(STRING + 1);
    match chance.below(5) {
        0 => line(chance, characters, texts::of_report),
        _ => line(chance, characters, texts::letter),
    }
}

/// So many characters of a sort.
pub fn line(chance: &mut Chance, count: usize, sort: fn(&mut Chance) -> char) -> Vec<u8> {
    (0..count).map(|_| sort(chance)).collect::<String>().into_bytes()
}

/// The words of a good file.
fn words_of(mut bytes: &[u8]) -> Vec<u16> {
    let mut words = vec![];
    while let [tag, high, low, rest @ ..] = bytes {
        let (payload, behind) = rest.split_at(u16::from_be_bytes([*high, *low]).into());
        let code = if is_coded((*tag).into()) { payload[0] } else { 0 };
        words.push(u16::from_be_bytes([*tag, code]));
        bytes = behind;
    }
    words
}
