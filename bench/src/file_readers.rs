//! This reader of token files, and beside it the plain C check of text, through the C interface.
use crate::files::{Content, File};

#[derive(Clone, Copy, Debug, PartialEq)]
pub enum FileReader {
    Ours,
    /// Looks at a text alone.
    Plain,
}

/// The answer's words.
pub type Answer = [u64; 4];

impl FileReader {
    const ALL: [FileReader; 2] = [FileReader::Ours, FileReader::Plain];

    /// Those for files that hold such a thing, as far as this bench was built with them.
    pub fn of(content: Content) -> Vec<FileReader> {
        let there = |reader: &FileReader| match reader {
            FileReader::Ours => cfg!(feature = "ours"),
            FileReader::Plain => matches!(content, Content::Text(_)),
        };
        FileReader::ALL.iter().copied().filter(there).collect()
    }

    pub fn name(self) -> &'static str {
        match self {
            FileReader::Ours => "ours",
            FileReader::Plain => "plain",
        }
    }

    pub fn named(name: &str, content: Content) -> Option<FileReader> {
        FileReader::of(content).into_iter().find(|reader| reader.name() == name)
    }

    /// Whether it takes a file: this reader the whole of it, into words, and the plain C check the text in it.
    pub fn takes(self, file: &File, words: &mut [u16]) -> bool {
        match self {
            FileReader::Ours => ours(&file.bytes, words)[0] == 0,
            FileReader::Plain => plain(file.counted()),
        }
    }
}

extern "C" {
    fn plain_is_text(bytes: *const u8, length: usize) -> bool;
}

/// Whether the plain C check takes bytes for text.
pub fn plain(bytes: &[u8]) -> bool {
    unsafe { plain_is_text(bytes.as_ptr(), bytes.len()) }
}

/// This reader's answer to a file.
#[cfg(feature = "ours")]
pub fn ours(bytes: &[u8], words: &mut [u16]) -> Answer {
    let mut answer = [0; 4];
    crate::raw::read_file(bytes, words, &mut answer);
    answer
}

#[cfg(not(feature = "ours"))]
pub fn ours(_bytes: &[u8], _words: &mut [u16]) -> Answer {
    unreachable!("`FileReader::of` leaves this reader out")
}
