//! The writers of trees as JSON, ours and the plain C one, through the C interface.
use crate::json_trees::Tree;
use crate::readers::MOST_ROWS;

/// The answer's words.
pub type Answer = [u64; 4];

/// A writer: its name, how many rows of a pool it looks at, and what it does.
#[derive(Clone, Copy)]
pub struct JsonWriter {
    pub name: &'static str,
    pub most: usize,
    pub write: fn(&Tree, &mut [u8]) -> Answer,
}

pub const PLAIN: JsonWriter = JsonWriter { name: "plain", most: MOST_ROWS, write: plain };

/// Those of this archive, that for threads with little stack behind the other; none where it has no such writer, or where
/// the bench is built without it.
#[cfg(feature = "json")]
pub const OURS: &[JsonWriter] = &[
    JsonWriter { name: "ours", most: MOST_ROWS, write: ours::json },
    JsonWriter { name: "small", most: crate::sizes::SMALL_ROWS, write: ours::json_small },
];
#[cfg(not(feature = "json"))]
pub const OURS: &[JsonWriter] = &[];

impl JsonWriter {
    /// Those that are timed.
    pub fn timed() -> Vec<JsonWriter> {
        OURS.iter().copied().take(1).chain([PLAIN]).collect()
    }

    pub fn named(name: &str) -> Option<JsonWriter> {
        JsonWriter::timed().into_iter().find(|writer| writer.name == name)
    }
}

extern "C" {
    fn plain_json(
        pool: *const u32,
        pool_words: usize,
        root: usize,
        file: *const u8,
        file_length: usize,
        text: *mut u8,
        room: usize,
        answer: *mut u64,
    );
}

fn plain(tree: &Tree, text: &mut [u8]) -> Answer {
    let mut answer = [0; 4];
    let (pool, file) = (&tree.pool, &tree.file);
    let (told, room, out) = (text.as_mut_ptr(), text.len(), answer.as_mut_ptr());
    unsafe {
        plain_json(
            pool.as_ptr(),
            pool.len(),
            tree.rows(),
            file.as_ptr(),
            file.len(),
            told,
            room,
            out,
        )
    };
    answer
}

#[cfg(feature = "json")]
mod ours {
    use super::{Answer, Tree};
    use crate::raw;

    pub fn json(tree: &Tree, text: &mut [u8]) -> Answer {
        let mut answer = [0; 4];
        raw::json(&tree.pool, tree.rows(), &tree.file, text, &mut answer);
        answer
    }

    pub fn json_small(tree: &Tree, text: &mut [u8]) -> Answer {
        let mut answer = [0; 4];
        raw::json_small(&tree.pool, tree.rows(), &tree.file, text, &mut answer);
        answer
    }
}
