//! Whether this reader reads a token file as it was made, and the plain C check is right; asked before files are timed.
use crate::file_readers::{self, FileReader};
use crate::files::{Content, File};
use crate::texts::{text, Text};

/// Stands in every word of a buffer before the reader is asked.
const FILLING: u16 = 0xA5A5;

/// How many texts of a kind are damaged in every way, and how many bytes they have.
const TEXTS: u64 = 20;
const BYTES: usize = 24;

/// Stops the bench if a file isn't read as it was made, or if its text isn't taken for one.
pub fn ask(file: &File, content: Content) {
    let readers = FileReader::of(content);
    if readers.contains(&FileReader::Ours) {
        let count = file.words.len();
        let read = ([0, count as u64, 0, 0], file.words.clone());
        assert!(ours(file, count) == read, "another count of fields, or other words");
        let longer = (read.0, [&read.1[..], &[0]].concat());
        assert!(ours(file, count + 1) == longer, "other words with plenty of room");
        assert!(ours(file, count - 1) == ([3, 0, 0, 0], vec![0; count - 1]), "too few are enough");
    }
    if readers.contains(&FileReader::Plain) {
        assert!(file_readers::plain(file.counted()), "the plain C check refuses a text");
    }
}

/// What this reader makes of a file: the answer, and every word of a buffer of so many.
fn ours(file: &File, words: usize) -> (file_readers::Answer, Vec<u16>) {
    let mut buffer = vec![FILLING; words];
    (file_readers::ours(&file.bytes, &mut buffer), buffer)
}

/// Stops the bench if the plain C check and the standard library differ about a text, whole or damaged.
pub fn ask_plain() {
    for kind in Text::ALL {
        for number in 0..TEXTS {
            let bytes = text(kind, BYTES, number).into_bytes();
            compare(&bytes);
            (0..BYTES).for_each(|at| damage(&bytes, at));
        }
    }
}

/// The same about a text that is cut before a place, or has no byte there, or any other.
fn damage(bytes: &[u8], at: usize) {
    let (front, behind) = (&bytes[..at], &bytes[at + 1..]);
    compare(front);
    compare(&[front, behind].concat());
    for other in 0..=u8::MAX {
        compare(&[front, &[other], behind].concat());
    }
}

fn compare(bytes: &[u8]) {
    let is_text = std::str::from_utf8(bytes).is_ok();
    assert!(file_readers::plain(bytes) == is_text, "the plain C check is wrong: {:02X?}", bytes);
}
