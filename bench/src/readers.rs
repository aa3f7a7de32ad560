//! The readers of a whole script: this reader in both modes and the plain C one through the C interface, and the original.
use crate::lexer::LexerAPI;
use crate::parser::ast::Program;
use crate::parser::Parser;

/// Words of a row, and the most rows a pool has.
pub use crate::sizes::{MOST_ROWS, ROW_WORDS as ROW};

/// The words of a row that have its first child and its next, as in `state.h`.
pub const CHILD: usize = 3;
pub const NEXT: usize = CHILD + 4;

#[derive(Clone, Copy, Debug, PartialEq)]
pub enum Reader {
    Original,
    Ours,
    /// This reader in strict mode. All others read in the old mode, which is the original's.
    Strict,
    Plain,
}

impl Reader {
    const ALL: [Reader; 4] = [Reader::Original, Reader::Ours, Reader::Strict, Reader::Plain];

    /// Whether it is this reader, which the bench may be built without.
    fn is_ours(self) -> bool {
        matches!(self, Reader::Ours | Reader::Strict)
    }

    /// The readers that this bench was built with.
    pub fn all() -> Vec<Reader> {
        let there = |reader: &Reader| cfg!(feature = "ours") || !reader.is_ours();
        Reader::ALL.iter().copied().filter(there).collect()
    }

    /// Those in the old mode, which are timed.
    pub fn timed() -> Vec<Reader> {
        Reader::all().into_iter().filter(|&reader| reader != Reader::Strict).collect()
    }

    pub fn name(self) -> &'static str {
        match self {
            Reader::Original => "original",
            Reader::Ours => "ours",
            Reader::Strict => "strict",
            Reader::Plain => "plain",
        }
    }

    pub fn named(name: &str) -> Option<Reader> {
        Reader::all().into_iter().find(|reader| reader.name() == name)
    }
}

extern "C" {
    fn plain_whole_script(
        tokens: *const u16,
        count: usize,
        pool: *mut u32,
        words: usize,
        strict: bool,
        answer: *mut u64,
    );
}

/// The plain C reader's answer to a script.
pub fn plain(tokens: &[u16], pool: &mut [u32]) -> [u64; 4] {
    let mut answer = [0; 4];
    let (words, rows, out) = (tokens.as_ptr(), pool.as_mut_ptr(), answer.as_mut_ptr());
    unsafe { plain_whole_script(words, tokens.len(), rows, pool.len(), false, out) };
    answer
}

/// This reader's answer to a script.
pub fn ours(tokens: &[u16], pool: &mut [u32]) -> [u64; 4] {
    in_mode(tokens, pool, false)
}

/// The same in strict mode.
pub fn strict(tokens: &[u16], pool: &mut [u32]) -> [u64; 4] {
    in_mode(tokens, pool, true)
}

#[cfg(feature = "ours")]
fn in_mode(tokens: &[u16], pool: &mut [u32], strict: bool) -> [u64; 4] {
    let mut answer = [0; 4];
    crate::raw::whole_script(tokens, pool, strict, &mut answer);
    answer
}

#[cfg(not(feature = "ours"))]
fn in_mode(_tokens: &[u16], _pool: &mut [u32], _strict: bool) -> [u64; 4] {
    unreachable!("`Reader::all` leaves this reader out")
}

/// A parser of the original's over a script, its tokens made.
pub fn prepared(tokens: &[u16]) -> Parser {
    Parser::new_from_lexer(LexerAPI::new(tokens))
}

/// The original's tree of a script; the bench has accepted scripts only.
pub fn original(parser: &mut Parser) -> Program {
    parser.parse().unwrap_or_else(|errors| panic!("the original refused: {}", errors[0]))
}
