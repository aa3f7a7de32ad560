//! What may stand where: the marks of each kind, and what its child words take.
use crate::kinds::*;
use crate::words::{INFIXES, PREFIXES, SUFFIXES};

/// The kinds that a slot takes. A plain identifier is in no brackets.
#[derive(Clone, Copy, Debug, PartialEq)]
pub enum Takes {
    Expressions,
    Statements,
    Block,
    Pairs,
    Names,
    PlainIdentifier,
    Root,
}

/// How many trees a slot takes.
#[derive(Clone, Copy, Debug, PartialEq)]
pub enum Many {
    One,
    AtMostOne,
    Any,
    OneOrMore,
}

#[derive(Clone, Copy, Debug, PartialEq)]
pub struct Slot {
    pub many: Many,
    pub takes: Takes,
}

const fn slot(many: Many, takes: Takes) -> Slot {
    Slot { many, takes }
}

/// The root's slot, and those of child words.
pub const ROOT: Slot = slot(Many::One, Takes::Root);
const VALUE: Slot = slot(Many::One, Takes::Expressions);
const MAYBE: Slot = slot(Many::AtMostOne, Takes::Expressions);
const LIST: Slot = slot(Many::Any, Takes::Expressions);
const SOME: Slot = slot(Many::OneOrMore, Takes::Expressions);
const PAIRS: Slot = slot(Many::Any, Takes::Pairs);
const PLAIN: Slot = slot(Many::One, Takes::PlainIdentifier);
const NAMES: Slot = slot(Many::OneOrMore, Takes::Names);
const BODY: Slot = slot(Many::One, Takes::Block);
const MAYBE_BODY: Slot = slot(Many::AtMostOne, Takes::Block);
const STATEMENTS: Slot = slot(Many::Any, Takes::Statements);

/// The slots of a kind, from its first child word on; none if it is no kind.
pub fn slots(kind: u32) -> &'static [Slot] {
    match kind {
        ARRAY => &[LIST],
        HASH => &[PAIRS],
        INDEX | INFIX | PAIR | ASSERT => &[VALUE, VALUE],
        CALL => &[VALUE, LIST],
        PREFIX | SUFFIX | SHELL | CONST | THROW | EXPRESSION => &[VALUE],
        LAMBDA => &[SOME, VALUE],
        ATTRIBUTE => &[PLAIN, NAMES],
        VAR | RETURN => &[MAYBE],
        TRY => &[BODY, VALUE, BODY, MAYBE_BODY],
        FUNCTION => &[LIST, BODY],
        FOR => &[VALUE, VALUE, BODY],
        WHILE => &[VALUE, BODY],
        IF => &[VALUE, BODY, MAYBE_BODY],
        FOREACH => &[VALUE, VALUE, VALUE, BODY],
        BLOCK => &[STATEMENTS],
        _ => &[],
    }
}

/// The kinds that need nothing in their slots.
pub fn bare_kinds() -> Vec<u32> {
    ALL.iter().copied().filter(|&kind| slots(kind).iter().all(|slot| !slot.is_needed())).collect()
}

/// How many marks a kind has, from 0 on, brackets aside; none if it is no kind.
pub fn marks(kind: u32) -> u32 {
    match kind {
        INFIX => INFIXES.len() as u32,
        PREFIX => PREFIXES.len() as u32,
        SUFFIX => SUFFIXES.len() as u32,
        CALL => THREAD + ASYNC + 1,
        BOOL | SHELL => 2,
        known if ALL.contains(&known) => 1,
        _ => 0,
    }
}

/// Whether a mark is one of a kind's; only an expression can be in brackets.
pub fn is_mark(kind: u32, mark: u32) -> bool {
    let grouped = GROUPED..GROUPED + marks(kind);
    mark < marks(kind) || (is_expression(kind) && grouped.contains(&mark))
}

pub fn is_expression(kind: u32) -> bool {
    (NONE..=ATTRIBUTE).contains(&kind)
}

fn is_statement(kind: u32) -> bool {
    (BREAK..=FOREACH).contains(&kind)
}

/// Every slot of every kind: the kind, the child word, and the slot.
pub fn all() -> impl Iterator<Item = (u32, usize, Slot)> {
    let of =
        |&kind: &u32| slots(kind).iter().enumerate().map(move |(index, &slot)| (kind, index, slot));
    ALL.iter().flat_map(of)
}

impl Takes {
    /// The kinds that are taken where they aren't in brackets.
    pub fn kinds(self) -> Vec<u32> {
        ALL.iter().copied().filter(|&kind| self.takes(kind, 0)).collect()
    }

    /// Whether a row of this kind and mark is taken.
    pub fn takes(self, kind: u32, mark: u32) -> bool {
        match self {
            Takes::Expressions => is_expression(kind),
            Takes::Statements => is_statement(kind),
            Takes::Block => kind == BLOCK,
            Takes::Pairs => kind == PAIR,
            Takes::Names => kind == NAME,
            Takes::PlainIdentifier => kind == IDENTIFIER && mark == 0,
            Takes::Root => is_expression(kind) || is_statement(kind) || kind == BLOCK,
        }
    }
}

impl Many {
    /// Whether so many are right.
    pub fn counts(self, count: usize) -> bool {
        match self {
            Many::One => count == 1,
            Many::AtMostOne => count < 2,
            Many::Any => true,
            Many::OneOrMore => count > 0,
        }
    }
}

impl Slot {
    /// Whether its trees are linked by next words.
    pub fn is_list(self) -> bool {
        self.many.counts(2)
    }

    /// Whether it can't be empty.
    pub fn is_needed(self) -> bool {
        !self.many.counts(0)
    }
}
