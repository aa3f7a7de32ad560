//! What came of many cases, counted.
use super::check::{Bad, Lack};
use super::judge::Judged;
use super::TOO_DEEP;
use crate::files::{BAD_FIELD, NOT_UNICODE, TOO_LONG};
use crate::trees::{NO_ROOM, NO_TREE};
use std::collections::BTreeMap;
use std::fmt;

#[derive(Debug, Default, PartialEq)]
pub struct Tally {
    cases: usize,
    /// The texts; those with a payload, and the bytes of all.
    texts: usize,
    with_payloads: usize,
    bytes: usize,
    /// The refusals by number; those with 38 by what is wrong.
    refused: BTreeMap<u32, usize>,
    bad: BTreeMap<&'static str, usize>,
}

/// The numbers in the order in which they are asked.
pub const NUMBERS: [u32; 6] = [TOO_LONG, BAD_FIELD, NOT_UNICODE, NO_TREE, TOO_DEEP, NO_ROOM];

/// What is wrong at the place of a refusal with 38: the root is no row; the row is bad, or lacks a field,
/// or its field is of another class; or it is bad and lacks one too.
pub const WRONGS: [&str; 5] = ["root", "row", "field", "class", "several"];

fn wrong(bad: &Bad) -> &'static str {
    match (bad.row, bad.lack, bad.faults.is_empty()) {
        (0, ..) => "root",
        (_, None, _) => "row",
        (_, Some(Lack::NoField), true) => "field",
        (_, Some(Lack::OtherClass), true) => "class",
        _ => "several",
    }
}

impl Tally {
    pub fn count(&mut self, judged: &Judged) {
        self.cases += 1;
        if let Some(text) = &judged.text {
            self.texts += 1;
            self.with_payloads += usize::from(judged.payloads > 0);
            self.bytes += text.len();
        } else {
            *self.refused.entry(judged.number).or_default() += 1;
        }
        if let Some(bad) = &judged.bad {
            *self.bad.entry(wrong(bad)).or_default() += 1;
        }
    }
}

impl fmt::Display for Tally {
    fn fmt(&self, to: &mut fmt::Formatter) -> fmt::Result {
        let refused = |number: u32| self.refused.get(&number).unwrap_or(&0);
        let numbers = NUMBERS.map(|number| format!("{}: {}", number, refused(number)));
        let bad = |name: &str| self.bad.get(name).unwrap_or(&0);
        let wrongs = WRONGS.map(|name| format!("{}: {}", name, bad(name)));
        write!(
            to,
            "{} recorded, {} texts ({} with payloads, {} bytes), refused ({}), 38 by what is wrong ({})",
            self.cases,
            self.texts,
            self.with_payloads,
            self.bytes,
            numbers.join(", "),
            wrongs.join(", ")
        )
    }
}
