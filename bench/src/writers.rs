//! The check of a tree and the writer, ours and the plain C ones, through the C interface.

/// What is done with a tree, and by which.
#[derive(Clone, Copy, Debug, PartialEq)]
pub enum Writer {
    OurCheck,
    PlainCheck,
    OurWrite,
    PlainWrite,
}

/// The answer's words.
pub type Answer = [u64; 4];

impl Writer {
    const ALL: [Writer; 4] =
        [Writer::OurCheck, Writer::PlainCheck, Writer::OurWrite, Writer::PlainWrite];

    /// Those that this bench was built with.
    pub fn all() -> Vec<Writer> {
        let there = |writer: &Writer| cfg!(feature = "ours") || !writer.is_ours();
        Writer::ALL.iter().copied().filter(there).collect()
    }

    /// Whether it is ours, which the bench may be built without.
    pub fn is_ours(self) -> bool {
        matches!(self, Writer::OurCheck | Writer::OurWrite)
    }

    pub fn name(self) -> &'static str {
        match self {
            Writer::OurCheck => "check",
            Writer::PlainCheck => "plain-check",
            Writer::OurWrite => "write",
            Writer::PlainWrite => "plain-write",
        }
    }

    pub fn named(name: &str) -> Option<Writer> {
        Writer::all().into_iter().find(|writer| writer.name() == name)
    }

    /// Checks the tree at a root, or checks and writes it.
    pub fn run(self, pool: &[u32], root: usize, words: &mut [u16], places: &mut [u32]) -> Answer {
        match self {
            Writer::OurCheck => ours::check(pool, root),
            Writer::PlainCheck => plain_check_of(pool, root),
            Writer::OurWrite => ours::write(pool, root, words, places),
            Writer::PlainWrite => plain_write_of(pool, root, words, places),
        }
    }
}

extern "C" {
    fn plain_check(pool: *const u32, pool_words: usize, root: usize, answer: *mut u64);
    fn plain_write(
        pool: *const u32,
        pool_words: usize,
        root: usize,
        words: *mut u16,
        words_room: usize,
        places: *mut u32,
        places_room: usize,
        answer: *mut u64,
    );
}

fn plain_check_of(pool: &[u32], root: usize) -> Answer {
    let mut answer = [0; 4];
    unsafe { plain_check(pool.as_ptr(), pool.len(), root, answer.as_mut_ptr()) };
    answer
}

fn plain_write_of(pool: &[u32], root: usize, words: &mut [u16], places: &mut [u32]) -> Answer {
    let mut answer = [0; 4];
    let (written, named) = (words.as_mut_ptr(), places.as_mut_ptr());
    let (count, out) = (pool.len(), answer.as_mut_ptr());
    unsafe {
        plain_write(pool.as_ptr(), count, root, written, words.len(), named, places.len(), out)
    };
    answer
}

#[cfg(feature = "ours")]
pub mod ours {
    //! Ours, with the functions for threads with little stack, which the bench only compares.
    use super::Answer;
    use crate::raw;

    /// The answer that a call writes.
    fn answer_of(call: impl FnOnce(&mut [u64])) -> Answer {
        let mut answer = [0; 4];
        call(&mut answer);
        answer
    }

    pub fn check(pool: &[u32], root: usize) -> Answer {
        answer_of(|answer| raw::check(pool, root, answer))
    }

    pub fn check_small(pool: &[u32], root: usize) -> Answer {
        answer_of(|answer| raw::check_small(pool, root, answer))
    }

    pub fn write(pool: &[u32], root: usize, words: &mut [u16], places: &mut [u32]) -> Answer {
        answer_of(|answer| raw::write(pool, root, words, places, answer))
    }

    pub fn write_small(pool: &[u32], root: usize, words: &mut [u16], places: &mut [u32]) -> Answer {
        answer_of(|answer| raw::write_small(pool, root, words, places, answer))
    }
}

#[cfg(not(feature = "ours"))]
pub mod ours {
    //! Stands for ours where the bench is built without it.
    use super::Answer;

    pub fn check(_pool: &[u32], _root: usize) -> Answer {
        unreachable!("`Writer::all` leaves it out")
    }

    pub fn write(_pool: &[u32], _root: usize, _words: &mut [u16], _places: &mut [u32]) -> Answer {
        unreachable!("`Writer::all` leaves it out")
    }

    pub use {check as check_small, write as write_small};
}
