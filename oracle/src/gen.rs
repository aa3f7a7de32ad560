//! The generators: streams of cases by kind, the same for the same seed.
mod chains;
mod damage;
mod grammar;
pub mod lengths;
mod limits;
mod loose;
mod nesting;
pub mod payloads;
pub mod rng;
pub mod token_files;

use crate::batch::Case;
use crate::model::{Entry, Mode, NO_ROW, ROW};
use crate::words::{self, EOF};
use lengths::left_over;
use rng::Rng;

pub const ENTRIES: [Entry; 3] = [Entry::Expression, Entry::Statement, Entry::Script];

/// The longest array, without EOF, of the exhaustive kind.
const SHORT: usize = 3;

#[derive(Clone, Copy, Debug, PartialEq)]
pub enum Kind {
    Short,
    Valid,
    Damaged,
    Loose,
    Noise,
    Chains,
    Nesting,
    Limits,
    Mixed,
}

/// The kinds by name.
pub const KINDS: [(&str, Kind); 9] = [
    ("short", Kind::Short),
    ("valid", Kind::Valid),
    ("damaged", Kind::Damaged),
    ("loose", Kind::Loose),
    ("noise", Kind::Noise),
    ("chains", Kind::Chains),
    ("nesting", Kind::Nesting),
    ("limits", Kind::Limits),
    ("mixed", Kind::Mixed),
];

/// How many rows a case gets: plenty; as many as it needs or fewer; or just that many or one less.
#[derive(Clone, Copy, Debug, PartialEq)]
pub enum Rows {
    Plenty,
    Scarce,
    Edge,
}

/// What to generate: the kind, the seed, how many (None: all or 10,000), how many rows, and the mode.
#[derive(Clone, Copy)]
pub struct Wish {
    pub kind: Kind,
    pub seed: u64,
    pub count: Option<usize>,
    pub rows: Rows,
    pub mode: Mode,
}

impl Wish {
    /// All cases of a kind or 10,000, with plenty of rows, in the old mode.
    pub fn of(kind: Kind, seed: u64) -> Wish {
        Wish { kind, seed, count: None, rows: Rows::Plenty, mode: Mode::Old }
    }
}

/// The cases of a wish, one after the other.
pub fn cases(wish: &Wish) -> Box<dyn Iterator<Item = Case>> {
    let plenty = match wish.kind {
        Kind::Short => shorts(),
        kind => random(kind, wish.seed),
    };
    let many = if wish.kind == Kind::Short { usize::MAX } else { 10_000 };
    let (mode, mut rng) = (wish.mode, Rng::new(!wish.seed));
    let taken = plenty.take(wish.count.unwrap_or(many)).map(move |case| case.by(mode));
    match wish.rows {
        Rows::Plenty => Box::new(taken),
        Rows::Scarce => Box::new(taken.map(move |case| with_few_rows(&mut rng, case))),
        Rows::Edge => Box::new(taken.map(move |case| at_the_edge(&mut rng, case))),
    }
}

/// Every array of up to three valid words and EOF, for each entry.
fn shorts() -> Box<dyn Iterator<Item = Case>> {
    let all = words::all_but_eof();
    let arrays = (0..=SHORT).flat_map(move |length| {
        let all = all.clone();
        (0..all.len().pow(length as u32)).map(move |index| numbered(&all, length, index))
    });
    Box::new(arrays.flat_map(|tokens| by_each_entry(&tokens)))
}

/// An array from its first token on, with plenty of rows.
fn by_each_entry(tokens: &[u16]) -> [Case; 3] {
    ENTRIES.map(|entry| Case::old(entry, 0, enough(tokens), tokens.to_vec()))
}

/// The array of `length` words whose digits spell `index`, and EOF.
fn numbered(all: &[u16], length: usize, index: usize) -> Vec<u16> {
    let mut rest = index;
    let mut tokens = vec![EOF; length + 1];
    for place in (0..length).rev() {
        tokens[place] = all[rest % all.len()];
        rest /= all.len();
    }
    tokens
}

/// Pool words that never run out: no token takes more than two rows, and a script one more.
pub fn enough(tokens: &[u16]) -> usize {
    (2 * tokens.len() + 1) * ROW
}

/// Endless random cases of a kind, behind those that the kind always has.
fn random(kind: Kind, seed: u64) -> Box<dyn Iterator<Item = Case>> {
    let mut maker = Maker { rng: Rng::new(seed), all: words::all_but_eof() };
    let always = match kind {
        Kind::Limits => limits::fixed(),
        Kind::Chains => ladders(),
        _ => vec![],
    };
    Box::new(always.into_iter().chain(std::iter::repeat_with(move || maker.case(kind))))
}

/// The chains that open the most expressions, for each entry.
fn ladders() -> Vec<Case> {
    let ladder = |times| {
        let mut tokens = chains::ladder(times);
        tokens.push(EOF);
        by_each_entry(&tokens)
    };
    (1..=4).flat_map(ladder).collect()
}

struct Maker {
    rng: Rng,
    all: Vec<u16>,
}

impl Maker {
    fn case(&mut self, kind: Kind) -> Case {
        let entry = self.rng.pick(&ENTRIES);
        let kind = self.plain(kind);
        let body = self.body(kind, entry);
        let mut tokens = self.lead();
        let start = tokens.len();
        if entry == Entry::Script {
            tokens.clear();
        }
        tokens.extend(body);
        tokens.push(EOF);
        let mut case = Case::old(entry, start, 0, tokens);
        if kind == Kind::Limits {
            self.overstep(&mut case);
        }
        case.pool = enough(&case.tokens) + left_over(&mut self.rng);
        case
    }

    /// The kind itself, or one picked for a mixed batch.
    fn plain(&mut self, kind: Kind) -> Kind {
        if kind != Kind::Mixed {
            return kind;
        }
        let kinds = [
            Kind::Valid,
            Kind::Damaged,
            Kind::Loose,
            Kind::Noise,
            Kind::Chains,
            Kind::Nesting,
            Kind::Limits,
        ];
        self.rng.pick(&kinds)
    }

    /// The words to be read, without EOF.
    fn body(&mut self, kind: Kind, entry: Entry) -> Vec<u16> {
        match kind {
            Kind::Noise => damage::noise(&mut self.rng, &self.all),
            Kind::Nesting => nesting::nest(&mut self.rng, entry != Entry::Expression),
            Kind::Chains => {
                let mut words = chains::chain(&mut self.rng);
                words.extend(chains::tail(&mut self.rng, &self.all));
                words
            }
            Kind::Damaged => {
                let mut words = grammar::text(&mut self.rng, entry);
                damage::damage(&mut self.rng, &mut words, &self.all);
                words
            }
            Kind::Loose => loose::text(&mut self.rng, entry, &self.all),
            _ => grammar::text(&mut self.rng, entry),
        }
    }

    /// Words before the start place; mostly none.
    fn lead(&mut self) -> Vec<u16> {
        if self.rng.chance(3, 4) {
            vec![]
        } else {
            damage::noise(&mut self.rng, &self.all)
        }
    }

    /// Spoils the array or moves the start beyond it.
    fn overstep(&mut self, case: &mut Case) {
        if self.rng.chance(3, 4) {
            limits::spoil(&mut self.rng, &mut case.tokens);
        }
        if self.rng.chance(1, 3) {
            case.start = case.tokens.len() + self.rng.below(3);
        }
    }
}

/// The same case with a pool of as many rows as it needs, or fewer.
fn with_few_rows(rng: &mut Rng, case: Case) -> Case {
    let answer = case.answer();
    let needed = if answer.words[0] == 0 { answer.words[2] as usize } else { case.tokens.len() };
    let rows = match rng.below(4) {
        0 => needed,
        1 => needed.saturating_sub(1),
        _ => rng.below(needed + 1),
    };
    Case { pool: rows * ROW + left_over(rng), ..case }
}

/// The same case with the fewest rows that don't run out, or one less.
fn at_the_edge(rng: &mut Rng, case: Case) -> Case {
    let with = |rows: usize| Case { pool: rows * ROW, ..case.clone() };
    let (mut least, mut most) = (0, case.pool / ROW);
    while least < most {
        let rows = (least + most) / 2;
        if with(rows).answer().words[0] == NO_ROW {
            least = rows + 1;
        } else {
            most = rows;
        }
    }
    with(least.saturating_sub(rng.below(2)))
}

#[cfg(test)]
mod tests {
    use super::*;
    use crate::model::WRONG_SIGN;

    #[test]
    fn shorts_are_all_there() {
        let one_entry = 1 + 77 + 77 * 77 + 77 * 77 * 77;
        assert_eq!(shorts().count(), 3 * one_entry);
    }

    #[test]
    fn a_seed_gives_the_same_cases() {
        for (_, kind) in KINDS {
            let wish = Wish { count: Some(50), rows: Rows::Scarce, ..Wish::of(kind, 7) };
            let words = || cases(&wish).map(|case| case.tokens).collect::<Vec<_>>();
            assert_eq!(words(), words());
        }
    }

    #[test]
    fn a_case_needs_just_the_rows_it_uses() {
        let wish = Wish { count: Some(100), ..Wish::of(Kind::Valid, 5) };
        for case in cases(&wish) {
            let plenty = case.answer();
            if plenty.words[0] != 0 || plenty.words[2] == 0 {
                continue;
            }
            let with = |rows| Case { pool: rows * ROW, ..case.clone() }.answer();
            let used = plenty.words[2] as usize;
            assert_eq!(with(used), plenty);
            assert!((0..used).all(|rows| with(rows).words[0] == 3));
        }
    }

    #[test]
    fn at_the_edge_one_row_decides() {
        for mode in [Mode::Old, Mode::Strict] {
            let wish =
                Wish { count: Some(200), rows: Rows::Edge, mode, ..Wish::of(Kind::Loose, 6) };
            let mut starved = 0;
            for case in cases(&wish) {
                let number = |rows| Case { pool: rows * ROW, ..case.clone() }.answer().words[0];
                let rows = case.pool / ROW;
                if number(rows) == NO_ROW {
                    assert_ne!(number(rows + 1), NO_ROW);
                    starved += 1;
                } else {
                    assert!(rows == 0 || number(rows - 1) == NO_ROW);
                }
            }
            assert!((50..150).contains(&starved), "{} of 200", starved);
        }
    }

    #[test]
    fn most_loose_texts_lack_a_sign_in_strict_mode_only() {
        let wish = Wish { count: Some(2000), ..Wish::of(Kind::Loose, 1) };
        let lacking = |mode| {
            let cases = cases(&Wish { mode, ..wish });
            cases.filter(|case| case.answer().words[0] == WRONG_SIGN).count()
        };
        assert_eq!(lacking(Mode::Old), 0);
        assert!(lacking(Mode::Strict) > 1400, "{} of 2000", lacking(Mode::Strict));
    }

    #[test]
    fn most_valid_texts_are_accepted() {
        let wish = Wish { count: Some(2000), ..Wish::of(Kind::Valid, 1) };
        let accepted = cases(&wish).filter(|case| case.answer().words[0] == 0).count();
        assert!(accepted > 1600, "{} of 2000", accepted);
    }
}
