//! What came of many cases, counted.
use super::check::{Fault, FAULTS};
use super::judge::Judged;
use super::record::MOST_IN_BATCH;
use super::slots::Takes;
use super::{NO_ROOM, NO_TREE};
use std::collections::BTreeMap;
use std::fmt;

#[derive(Debug, Default, PartialEq)]
pub struct Tally {
    cases: usize,
    /// The trees; those that were written, those of them that a batch can hold, and those that were
    /// not for want of room.
    trees: usize,
    written: usize,
    forms: usize,
    short: usize,
    /// Of the trees: read back as the same tree in both modes, by the model and the original; too
    /// deep; too long for an array.
    back: usize,
    deep: usize,
    long: usize,
    /// The refusals of a root, and those of a row by its one fault; those with several.
    no_root: usize,
    faults: BTreeMap<Fault, usize>,
    several: usize,
    /// The kinds of the trees' roots.
    roots: BTreeMap<u32, usize>,
}

impl Tally {
    pub fn count(&mut self, judged: &Judged) {
        self.cases += 1;
        self.written += usize::from(judged.number == 0);
        self.forms += usize::from(judged.number == 0 && judged.place <= MOST_IN_BATCH);
        self.short += usize::from(judged.number == NO_ROOM);
        if let Some(form) = &judged.form {
            self.trees += 1;
            *self.roots.entry(form.root_kind).or_default() += 1;
            match form.back[0] {
                0 => self.back += 1,
                1 => self.long += 1,
                _ => self.deep += 1,
            }
        }
        if judged.number == NO_TREE {
            match judged.faults[..] {
                [] => self.no_root += 1,
                [fault] => *self.faults.entry(fault).or_default() += 1,
                _ => self.several += 1,
            }
        }
    }

    /// Adds the counts of another.
    pub fn add(&mut self, other: Tally) {
        self.cases += other.cases;
        self.trees += other.trees;
        self.written += other.written;
        self.forms += other.forms;
        self.short += other.short;
        self.back += other.back;
        self.deep += other.deep;
        self.long += other.long;
        self.no_root += other.no_root;
        self.several += other.several;
        for (fault, count) in other.faults {
            *self.faults.entry(fault).or_default() += count;
        }
        for (kind, count) in other.roots {
            *self.roots.entry(kind).or_default() += count;
        }
    }

    /// Whether every answer, every fault alone, and every kind of root was met.
    pub fn has_all(&self) -> bool {
        let counts =
            [self.written, self.short, self.back, self.deep, self.long, self.no_root, self.several];
        let faults = FAULTS.iter().all(|fault| self.faults.contains_key(fault));
        let roots = Takes::Root.kinds().iter().all(|kind| self.roots.contains_key(kind));
        counts.iter().all(|&count| count > 0) && faults && roots
    }
}

impl fmt::Display for Tally {
    fn fmt(&self, to: &mut fmt::Formatter) -> fmt::Result {
        let count = |fault: Fault| self.faults.get(&fault).unwrap_or(&0);
        let faults = FAULTS.map(|fault| format!("{:?}: {}", fault, count(fault)).to_lowercase());
        let rows = self.cases - self.trees - self.no_root;
        write!(
            to,
            "{} recorded, {} trees ({} written, {} of them for a batch, {} without room), \
             {} read back in both modes, {} too deep, {} too long, {} refused for the root, \
             {} for a row ({}, several: {})",
            self.cases,
            self.trees,
            self.written,
            self.forms,
            self.short,
            self.back,
            self.deep,
            self.long,
            self.no_root,
            rows,
            faults.join(", "),
            self.several
        )
    }
}
