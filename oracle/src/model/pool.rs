//! The pool of rows: taking the lowest free row, linking a list, marking a row.
use super::{CHILDREN, END, MOST_ROWS, NEXT, ROW};

const MARK: usize = 1;

pub struct Pool<'a> {
    words: &'a mut [u32],
    rows: usize,
    used: usize,
}

impl<'a> Pool<'a> {
    pub fn new(words: &'a mut [u32]) -> Pool<'a> {
        let rows = (words.len() / ROW).min(MOST_ROWS);
        Pool { words, rows, used: 0 }
    }

    pub fn used(&self) -> usize {
        self.used
    }

    /// Takes the lowest free row and gives its reference, or None if all are taken. The head is kind,
    /// mark and place.
    pub fn build(&mut self, head: [u32; 3], children: &[u32], end: u32) -> Option<u32> {
        if self.used == self.rows {
            return None;
        }
        let row = &mut self.words[self.used * ROW..][..ROW];
        row[..CHILDREN.start].copy_from_slice(&head);
        row[CHILDREN][..children.len()].copy_from_slice(children);
        row[END] = end;
        self.used += 1;
        Some(self.used as u32)
    }

    pub fn kind(&self, reference: u32) -> u32 {
        self.words[first_word(reference)]
    }

    /// Adds flags to a row's mark; a flag that is there stays as it is.
    pub fn mark(&mut self, reference: u32, flags: u32) {
        self.words[first_word(reference) + MARK] |= flags;
    }

    pub fn link(&mut self, reference: u32, next: u32) {
        self.words[first_word(reference) + NEXT] = next;
    }
}

fn first_word(reference: u32) -> usize {
    (reference as usize - 1) * ROW
}
