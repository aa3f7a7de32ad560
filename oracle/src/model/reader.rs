//! The reader's state: the cursor, the count of open readers, and the rows.
use super::pool::Pool;
use super::{Mode, NO_ROW, WRONG_SIGN};
use crate::words;

/// The most calls of `parse_expression` and `parse_statement` open at once.
pub const MOST_OPEN: u32 = 64;

pub struct Refusal {
    pub number: u32,
    pub place: u32,
}

pub type Read<T> = Result<T, Refusal>;

pub struct Reader<'a> {
    tokens: &'a [u16],
    at: usize,
    mode: Mode,
    open: u32,
    pool: Pool<'a>,
}

impl<'a> Reader<'a> {
    pub fn new(tokens: &'a [u16], at: usize, mode: Mode, pool: &'a mut [u32]) -> Reader<'a> {
        Reader { tokens, at, mode, open: 0, pool: Pool::new(pool) }
    }

    pub fn rows_used(&self) -> u32 {
        self.pool.used() as u32
    }

    /// The place of the current token.
    pub fn place(&self) -> u32 {
        self.at as u32
    }

    fn next_place(&self) -> usize {
        (self.at + 1).min(self.tokens.len() - 1)
    }

    pub fn iterate(&mut self) {
        self.at = self.next_place();
    }

    pub fn current(&self) -> u16 {
        self.tokens[self.at]
    }

    pub fn next(&self) -> u16 {
        self.tokens[self.next_place()]
    }

    pub fn refuse<T>(&self, number: u32) -> Read<T> {
        Err(Refusal { number, place: self.place() })
    }

    /// Refuses unless the next token is `word`.
    pub fn want_next(&self, word: u16, number: u32) -> Read<()> {
        if self.next() == word {
            Ok(())
        } else {
            self.refuse(number)
        }
    }

    /// In strict mode, refuses unless the next token is `word`; in the old mode any token is right.
    pub fn want_sign(&self, word: u16) -> Read<()> {
        match self.mode {
            Mode::Old => Ok(()),
            Mode::Strict => self.want_next(word, WRONG_SIGN),
        }
    }

    /// Eats the next token if it is a semicolon.
    pub fn is_terminated(&mut self) -> bool {
        let found = self.next() == words::SEMICOLON;
        if found {
            self.iterate();
        }
        found
    }

    /// Runs a reader that counts towards the nesting limit.
    pub fn nested(&mut self, read: impl FnOnce(&mut Self) -> Read<u32>) -> Read<u32> {
        if self.open == MOST_OPEN {
            return self.refuse(2);
        }
        self.open += 1;
        let reference = read(self)?;
        self.open -= 1;
        Ok(reference)
    }

    /// Builds a row, which ends at the current token; without one left that is the refusal's place.
    pub fn build(&mut self, kind: u32, mark: u32, place: u32, children: &[u32]) -> Read<u32> {
        match self.pool.build([kind, mark, place], children, self.place()) {
            Some(reference) => Ok(reference),
            None => self.refuse(NO_ROW),
        }
    }

    pub fn kind(&self, reference: u32) -> u32 {
        self.pool.kind(reference)
    }

    pub fn mark(&mut self, reference: u32, flags: u32) {
        self.pool.mark(reference, flags);
    }

    pub fn push(&mut self, list: &mut List, reference: u32) {
        if list.first == 0 {
            list.first = reference;
        } else {
            self.pool.link(list.last, reference);
        }
        list.last = reference;
    }
}

/// A list of rows under way.
#[derive(Default)]
pub struct List {
    pub first: u32,
    last: u32,
}
