//! The tree that a pool holds, and what can be said of it: whether it fits, how deep it is, which
//! entry reads it.
use super::pool::Pool;
use super::slots::{is_expression, is_mark, slots, Takes};
use crate::kinds::*;
use crate::model::Entry;

/// A tree, without the ends of its rows, which say nothing of it.
#[derive(Clone, Debug, Default)]
pub struct Tree {
    pub kind: u32,
    pub mark: u32,
    pub place: u32,
    pub slots: [Vec<Tree>; 4],
}

/// The tree of a root, if its rows are one: each is met once, children are earlier and nexts later
/// rows, and all fits.
pub fn tree(pool: Pool, root: usize) -> Option<Tree> {
    let mut reader = Reader { pool, met: vec![false; pool.rows() + 1] };
    let tree = reader.tree(root)?;
    (pool.next(root) == 0 && tree.fits(Takes::Root)).then_some(tree)
}

struct Reader<'a> {
    pool: Pool<'a>,
    met: Vec<bool>,
}

impl Reader<'_> {
    fn tree(&mut self, row: usize) -> Option<Tree> {
        let pool = self.pool;
        if !pool.has(row) || std::mem::replace(&mut self.met[row], true) {
            return None;
        }
        let mut tree = Tree {
            kind: pool.kind(row),
            mark: pool.mark(row),
            place: pool.place(row),
            ..Tree::default()
        };
        for (slot, child) in tree.slots.iter_mut().zip(pool.children(row)) {
            if child >= row {
                return None;
            }
            *slot = self.list(child)?;
        }
        Some(tree)
    }

    /// The trees from a row on by next words; 0 is the end.
    fn list(&mut self, first: usize) -> Option<Vec<Tree>> {
        let mut trees = vec![];
        let mut row = first;
        while row != 0 {
            trees.push(self.tree(row)?);
            let next = self.pool.next(row);
            if next != 0 && next <= row {
                return None;
            }
            row = next;
        }
        Some(trees)
    }
}

impl Tree {
    /// All trees in its slots.
    pub fn parts(&self) -> impl Iterator<Item = &Tree> {
        self.slots.iter().flatten()
    }

    /// Whether it is taken, and all in it fits.
    pub fn fits(&self, takes: Takes) -> bool {
        let given = slots(self.kind);
        let fits_slot = |(index, trees): (usize, &Vec<Tree>)| match given.get(index) {
            None => trees.is_empty(),
            Some(slot) => {
                slot.many.counts(trees.len()) && trees.iter().all(|tree| tree.fits(slot.takes))
            }
        };
        takes.takes(self.kind, self.mark)
            && is_mark(self.kind, self.mark)
            && self.slots.iter().enumerate().all(fits_slot)
    }

    /// How many rows it takes.
    pub fn size(&self) -> usize {
        1 + self.parts().map(Tree::size).sum::<usize>()
    }

    /// How many rows stand on its longest path from owners to children.
    pub fn height(&self) -> usize {
        1 + self.parts().map(Tree::height).max().unwrap_or(0)
    }

    /// Whether another is the same but for places, ends and brackets.
    pub fn is_same(&self, other: &Tree) -> bool {
        let pairs = || self.slots.iter().zip(&other.slots);
        self.kind == other.kind
            && self.mark % GROUPED == other.mark % GROUPED
            && pairs().all(|(own, others)| own.len() == others.len())
            && self.parts().zip(other.parts()).all(|(own, other)| own.is_same(other))
    }

    /// How many readers of expressions and statements are open at once where its written form is
    /// read.
    pub fn open(&self) -> usize {
        let most = |index: usize| self.slots[index].iter().map(Tree::open).max().unwrap_or(0);
        let all = || self.parts().map(Tree::open).max().unwrap_or(0);
        match self.kind {
            NONE..=BOOL | ATTRIBUTE => 1,
            INFIX | INDEX => 1 + most(0).max(1 + most(1)),
            CALL => {
                1 + (self.mark & 1) as usize
                    + (self.mark >> 1 & 1) as usize
                    + most(0).max(1 + most(1))
            }
            PREFIX | SHELL | LAMBDA => 2 + all(),
            PAIR | BLOCK => all(),
            _ => 1 + all(),
        }
    }

    /// The entry that reads its written form.
    pub fn entry(&self) -> Entry {
        match self.kind {
            BLOCK => Entry::Script,
            kind if is_expression(kind) => Entry::Expression,
            _ => Entry::Statement,
        }
    }
}
