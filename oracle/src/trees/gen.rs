//! The generators of cases by kind, the same for the same seed.
use super::case::Case;
use super::damage;
use super::grow::Grower;
use super::held::Tree;
use super::large;
use super::layout::{lay, other_row, Order, ORDERS};
use super::slots::Takes;
use super::table;
use crate::gen::lengths::{eighths, words, EIGHTHS};
use crate::gen::rng::Rng;
use crate::gen::{self as texts, Wish};
use crate::kinds::{ARRAY, IDENTIFIER};
use crate::model::{CHILDREN, MOST_ROWS, NEXT, ROW};

#[derive(Clone, Copy, Debug, PartialEq)]
pub enum Kind {
    /// Every kind in every slot, and every mark.
    Table,
    /// Random trees that fit, laid out in every order.
    Grown,
    /// The rows that the reader gives for random texts, from any of them as the root.
    Parsed,
    /// Nests around the limit of open readers.
    Nests,
    /// Deep chains, wide lists, long forms, full pools.
    Large,
    /// Trees in which a few words are changed.
    Broken,
    /// Small pools of random words.
    Noise,
    /// Roots that are no row, short pools, words left over, and the most rows.
    Limits,
}

/// The kinds by name.
pub const KINDS: [(&str, Kind); 8] = [
    ("table", Kind::Table),
    ("grown", Kind::Grown),
    ("parsed", Kind::Parsed),
    ("nests", Kind::Nests),
    ("large", Kind::Large),
    ("broken", Kind::Broken),
    ("noise", Kind::Noise),
    ("limits", Kind::Limits),
];

/// The cases of a kind: the first `count`, or all or 10,000.
pub fn cases(kind: Kind, seed: u64, count: Option<usize>) -> Box<dyn Iterator<Item = Case>> {
    let mut maker = Maker::new(seed);
    match kind {
        Kind::Table => Box::new(table().take(count.unwrap_or(usize::MAX))),
        _ => {
            let always = maker.fixed(kind);
            let random = std::iter::repeat_with(move || maker.case(kind));
            Box::new(always.into_iter().chain(random).take(count.unwrap_or(10_000)))
        }
    }
}

/// Pools of the trees that a function makes, in any order of rows, with other rows between and behind.
pub fn laid(seed: u64, tree: impl Fn(&mut Rng) -> Tree) -> impl Iterator<Item = (Vec<u32>, usize)> {
    let mut maker = Maker::new(seed);
    std::iter::repeat_with(move || {
        let tree = tree(&mut maker.rng);
        let (mut pool, root) = maker.lay(&tree);
        damage::other_ends(&mut maker.ends, &mut pool);
        (pool, root)
    })
}

/// The trees of the table as a reader would lay them out.
fn table() -> impl Iterator<Item = Case> {
    table::trees().map(|tree| {
        let (pool, root) = lay(&mut Rng::new(0), &tree, Order::Post, 0);
        Case::roomy(pool, root)
    })
}

/// A text that is accepted: its tokens, and what the reader gives for them.
pub struct Parsed {
    pub tokens: Vec<u16>,
    pub pool: Vec<u32>,
    pub root: usize,
}

impl Parsed {
    /// Its root; every third time any of its rows.
    pub fn some_root(&self, rng: &mut Rng) -> usize {
        let rows = self.pool.len() / ROW;
        if rng.chance(1, 3) {
            1 + rng.below(rows)
        } else {
            self.root
        }
    }
}

/// Random texts that are accepted.
pub fn parsed(seed: u64) -> Box<dyn Iterator<Item = Parsed>> {
    let wish = Wish { count: Some(usize::MAX), ..Wish::of(texts::Kind::Valid, seed) };
    let parsed = texts::cases(&wish).map(|case| {
        let answer = case.answer();
        let root = answer.root() as usize;
        Parsed { tokens: case.tokens, pool: answer.rows, root }
    });
    Box::new(parsed.filter(|text| text.root != 0))
}

struct Maker {
    rng: Rng,
    /// Draws the ends of rows, so that all else is the same whatever they are.
    ends: Rng,
    texts: Box<dyn Iterator<Item = Parsed>>,
}

impl Maker {
    fn new(seed: u64) -> Maker {
        Maker { rng: Rng::new(seed), ends: Rng::new(!seed), texts: parsed(seed) }
    }

    /// The cases that each run of a kind has.
    fn fixed(&mut self, kind: Kind) -> Vec<Case> {
        match kind {
            Kind::Large => large::fixed().iter().map(|tree| self.laid(tree)).collect(),
            Kind::Limits => limits(),
            _ => vec![],
        }
    }

    fn case(&mut self, kind: Kind) -> Case {
        let (mut pool, root) = self.pool(kind);
        damage::other_ends(&mut self.ends, &mut pool);
        Case::about(&mut self.rng, pool, root)
    }

    fn pool(&mut self, kind: Kind) -> (Vec<u32>, usize) {
        match kind {
            Kind::Nests => {
                let open = 58 + self.rng.below(9);
                let tree = Grower::new(&mut self.rng).nest(open);
                self.lay(&tree)
            }
            Kind::Large => {
                let tree = large::tree(&mut self.rng);
                self.lay(&tree)
            }
            Kind::Parsed => self.parsed(),
            Kind::Broken => self.broken(),
            Kind::Noise => damage::noise(&mut self.rng),
            Kind::Limits => self.at_a_limit(),
            _ => self.grown(),
        }
    }

    /// A tree in a pool of any order, with as much room as it takes.
    fn laid(&mut self, tree: &Tree) -> Case {
        let order = self.rng.pick(&ORDERS);
        let (mut pool, root) = lay(&mut self.rng, tree, order, 0);
        damage::other_ends(&mut self.ends, &mut pool);
        Case::about(&mut self.rng, pool, root)
    }

    /// A tree in any order, and in small pools with other rows between and behind.
    fn lay(&mut self, tree: &Tree) -> (Vec<u32>, usize) {
        let order = self.rng.pick(&ORDERS);
        let size = tree.size();
        let gaps = if size < 1000 && self.rng.chance(1, 3) { 2 } else { 0 };
        let (mut pool, root) = lay(&mut self.rng, tree, order, gaps);
        let more = if self.rng.chance(1, 3) { self.rng.below(3 * EIGHTHS) } else { 0 };
        let (length, rows) = (pool.len() + words(more), pool.len() / ROW);
        while pool.len() < length {
            pool.extend(other_row(&mut self.rng, rows + 3));
        }
        pool.truncate(length);
        (pool, root)
    }

    fn grown(&mut self) -> (Vec<u32>, usize) {
        let depth = self.rng.below(8);
        let tree = Grower::new(&mut self.rng).tree(Takes::Root, depth);
        self.lay(&tree)
    }

    /// The reader's rows; every third time from any of them as the root.
    fn parsed(&mut self) -> (Vec<u32>, usize) {
        let text = self.texts.next().expect("there is always another text");
        let root = text.some_root(&mut self.rng);
        (text.pool, root)
    }

    /// A tree of any kind with some damage.
    fn broken(&mut self) -> (Vec<u32>, usize) {
        let kind = self.rng.pick(&[Kind::Grown, Kind::Grown, Kind::Grown, Kind::Parsed]);
        let kind = if self.rng.chance(1, 50) { Kind::Nests } else { kind };
        let (mut pool, mut root) = self.pool(kind);
        damage::damage(&mut self.rng, &mut pool, &mut root);
        (pool, root)
    }

    /// A tree from a root that may be none, its pool perhaps cut short.
    fn at_a_limit(&mut self) -> (Vec<u32>, usize) {
        let (mut pool, mut root) = self.grown();
        if self.rng.chance(1, 2) {
            root = damage::root(&mut self.rng, pool.len() / ROW);
        }
        if self.rng.chance(1, 2) {
            pool.truncate(words(self.rng.below(eighths(pool.len()) + 1)));
        }
        (pool, root)
    }
}

/// Short pools with each root, and the largest pools with roots and references at their end.
fn limits() -> Vec<Case> {
    let mut cases = vec![];
    for length in (0..=2 * EIGHTHS + 1).map(words) {
        let pool = identifiers(length);
        for root in [0, 1, 2, 3, 65_535, 65_536, u32::MAX as usize] {
            cases.push(Case::roomy(pool.clone(), root));
        }
    }
    for rows in MOST_ROWS - 1..=MOST_ROWS + 2 {
        for (root, next) in
            [(rows - 1, 0), (rows, 0), (1, rows), (1, rows - 1), (2, rows), (2, rows - 1)]
        {
            cases.push(Case { words: 9, places: 9, ..at_the_end(rows, root, next) });
        }
    }
    cases
}

/// A pool of identifiers, but that row 2 is an array of row 1 and, if `next` is one, that row
/// behind it.
fn at_the_end(rows: usize, root: usize, next: usize) -> Case {
    let mut pool = identifiers(rows * ROW);
    pool[NEXT] = next as u32;
    pool[ROW] = ARRAY;
    pool[ROW + CHILDREN.start] = 1;
    Case::roomy(pool, root)
}

/// A pool of so many words whose rows are identifiers.
fn identifiers(length: usize) -> Vec<u32> {
    (0..length).map(|index| if index % ROW == 0 { IDENTIFIER } else { 0 }).collect()
}

#[cfg(test)]
mod tests {
    use super::*;

    #[test]
    fn a_seed_gives_the_same_cases() {
        for (_, kind) in KINDS.into_iter().filter(|&(_, kind)| kind != Kind::Large) {
            let words = || {
                let cases = cases(kind, 7, Some(50));
                cases
                    .map(|case| (case.pool, case.root, case.words, case.places))
                    .collect::<Vec<_>>()
            };
            assert_eq!(words(), words());
        }
    }
}
