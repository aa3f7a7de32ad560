//! A lent pool, read by references.
use crate::model::{CHILDREN, MOST_ROWS, NEXT, ROW};

/// The words of a pool, whatever they are. The ends of its rows are never looked at.
#[derive(Clone, Copy)]
pub struct Pool<'a>(pub &'a [u32]);

impl Pool<'_> {
    /// How many rows there are.
    pub fn rows(self) -> usize {
        (self.0.len() / ROW).min(MOST_ROWS)
    }

    /// Whether a number is a row's reference.
    pub fn has(self, number: usize) -> bool {
        (1..=self.rows()).contains(&number)
    }

    fn word(self, row: usize, index: usize) -> u32 {
        self.0[(row - 1) * ROW + index]
    }

    pub fn kind(self, row: usize) -> u32 {
        self.word(row, 0)
    }

    pub fn mark(self, row: usize) -> u32 {
        self.word(row, 1)
    }

    pub fn place(self, row: usize) -> u32 {
        self.word(row, 2)
    }

    /// The child words.
    pub fn children(self, row: usize) -> [usize; 4] {
        [0, 1, 2, 3].map(|index| self.word(row, CHILDREN.start + index) as usize)
    }

    pub fn next(self, row: usize) -> usize {
        self.word(row, NEXT) as usize
    }

    /// The rows that the child and next words of a row refer to, one for each such word.
    pub fn led_to(self, row: usize) -> impl Iterator<Item = usize> {
        let words = [self.children(row).as_slice(), &[self.next(row)]].concat();
        let rows = self.rows();
        words.into_iter().filter(move |word| (1..=rows).contains(word))
    }
}
