//! The generators of cases by kind, the same for the same seed.
use super::case::Case;
use super::fields::{self, filled, long, Fields};
use super::MOST_DEEP;
use crate::files::{tagged, MOST_BYTES};
use crate::gen::rng::Rng;
use crate::gen::token_files::random_field;
use crate::model::ROW;
use crate::trees::examples::pool_of;
use crate::trees::gen::{self as trees, Parsed};
use crate::trees::grow::Grower;

#[derive(Clone, Copy, Debug, PartialEq)]
pub enum Kind {
    /// Every kind in every slot, and every mark.
    Table,
    /// Random trees that fit, laid out in every order.
    Grown,
    /// The rows that the reader gives for random texts, with the files of those texts.
    Parsed,
    /// Nests around the most rows on a path.
    Deep,
    /// Deep chains, wide lists, full pools.
    Large,
    /// Trees in which a few words are changed.
    Broken,
    /// Trees whose places or files are damaged.
    Fields,
    /// Small pools of random words.
    Noise,
    /// Roots that are no row, short pools, the most rows, the longest files and payloads.
    Limits,
}

/// The kinds by name.
pub const KINDS: [(&str, Kind); 9] = [
    ("table", Kind::Table),
    ("grown", Kind::Grown),
    ("parsed", Kind::Parsed),
    ("deep", Kind::Deep),
    ("large", Kind::Large),
    ("broken", Kind::Broken),
    ("fields", Kind::Fields),
    ("noise", Kind::Noise),
    ("limits", Kind::Limits),
];

/// The cases of a kind: the first `count`, or all or 10,000.
pub fn cases(kind: Kind, seed: u64, count: Option<usize>) -> Box<dyn Iterator<Item = Case>> {
    let mut maker = Maker { rng: Rng::new(seed), fields: Fields::new() };
    let most = count.unwrap_or(10_000);
    let other = match kind {
        Kind::Parsed => {
            let texts = trees::parsed(seed);
            return Box::new(texts.map(move |text| maker.parsed(text)).take(most));
        }
        Kind::Deep => {
            let pools = trees::laid(seed, |rng| nest(rng));
            let cases = pools.map(move |(pool, root)| maker.case(kind, pool, root));
            return Box::new(cases.take(most));
        }
        Kind::Table => trees::Kind::Table,
        Kind::Grown | Kind::Fields => trees::Kind::Grown,
        Kind::Large => trees::Kind::Large,
        Kind::Broken => trees::Kind::Broken,
        Kind::Noise => trees::Kind::Noise,
        Kind::Limits => trees::Kind::Limits,
    };
    let always = if kind == Kind::Limits { limits() } else { vec![] };
    let pools = trees::cases(other, seed, count);
    let cases = pools.map(move |case| maker.case(kind, case.pool, case.root));
    Box::new(always.into_iter().chain(cases).take(count.unwrap_or(usize::MAX)))
}

/// A nest whose longest path is about as long as may be, or much longer.
fn nest(rng: &mut Rng) -> crate::trees::held::Tree {
    let more = if rng.chance(1, 4) { 100 } else { 4 };
    let height = MOST_DEEP - 2 + rng.below(more);
    Grower::new(rng).nest_until(|tree| tree.height() >= height)
}

struct Maker {
    rng: Rng,
    fields: Fields,
}

impl Maker {
    /// The case of a pool, with a file for it.
    fn case(&mut self, kind: Kind, mut pool: Vec<u32>, root: usize) -> Case {
        let fields = self.fields.some(&mut self.rng, pool.len() / ROW);
        if kind != Kind::Noise || self.rng.chance(2, 3) {
            fields::place(&mut self.rng, &mut pool, &fields);
        }
        let file = self.file(kind, &mut pool, fields);
        Case::about(&mut self.rng, pool, root, file)
    }

    /// The file of some fields, good or not so good.
    fn file(&mut self, kind: Kind, pool: &mut [u32], fields: Vec<Vec<u8>>) -> Vec<u8> {
        let spoils = match kind {
            Kind::Fields => 6,
            Kind::Broken | Kind::Noise | Kind::Limits => 1,
            _ => 0,
        };
        if spoils == 0 || !self.rng.chance(spoils, 6) {
            return fields.concat();
        }
        if self.rng.chance(1, 100) {
            return filled(&fields, long(&mut self.rng));
        }
        self.fields.spoilt(&mut self.rng, pool, fields)
    }

    /// The rows of a text, and its tokens as a file.
    fn parsed(&mut self, text: Parsed) -> Case {
        let root = text.some_root(&mut self.rng);
        let rng = &mut self.rng;
        let file = text.tokens.iter().flat_map(|&word| random_field(rng, word)).collect();
        Case::about(rng, text.pool, root, file)
    }
}

/// The longest files and payloads, each with room enough and with one byte too little.
fn limits() -> Vec<Case> {
    let mut cases = vec![];
    for length in [MOST_BYTES - 1, MOST_BYTES, MOST_BYTES + 1, MOST_BYTES + 900] {
        cases.push(Case::roomy(pool_of("6"), 1, filled(&[], length)));
        cases.push(Case::roomy(pool_of("6 0 1"), 1, filled(&[tagged(8, &[1])], length)));
        cases.push(Case::roomy(pool_of("2"), 1, vec![0; length]));
    }
    let room = MOST_BYTES - tagged(4, b"").len();
    for text in ["\0", "\\", "\"", "\u{7F}", "\u{20AC}", "\u{1F600}"] {
        let text = text.repeat(room / text.len());
        for (rows, class) in [("6", 4), ("2", 7)] {
            cases.push(Case::roomy(pool_of(rows), 1, tagged(class, text.as_bytes())));
        }
    }
    // As many fields as a file can have, and the first number that is none of theirs.
    let last = MOST_BYTES / 3 - 1;
    let many = [tagged(1, b"").repeat(last), tagged(7, b"")].concat();
    for place in last - 1..=last + 1 {
        cases.push(Case::roomy(pool_of(&format!("2 0 {}", place)), 1, many.clone()));
    }
    let short = cases.clone().into_iter().filter(|case| case.room > 99);
    let short: Vec<Case> = short.map(|case| Case { room: case.room - 10, ..case }).collect();
    cases.into_iter().chain(short).collect()
}

#[cfg(test)]
mod tests {
    use super::*;
    use crate::json::judge::judge;
    use std::collections::BTreeMap;

    #[test]
    fn a_seed_gives_the_same_cases() {
        for (_, kind) in KINDS.into_iter().filter(|&(_, kind)| kind != Kind::Large) {
            let told = || cases(kind, 7, Some(50)).map(|case| case.to_string()).collect::<Vec<_>>();
            assert_eq!(told(), told());
        }
    }

    #[test]
    fn cases_of_each_answer() {
        let mut counts: BTreeMap<u32, usize> = BTreeMap::new();
        for (name, kind) in KINDS.into_iter().filter(|&(_, kind)| kind != Kind::Large) {
            for case in cases(kind, 1, Some(400)) {
                let judged = judge(&case).unwrap_or_else(|what| panic!("{}: {}", case, what));
                *counts.entry(judged.number).or_default() += 1;
                let refused = [38, 5, 33, 6].contains(&judged.number);
                assert!(
                    kind != Kind::Grown && kind != Kind::Deep || !refused,
                    "{}: {}",
                    name,
                    case
                );
            }
        }
        for number in [0, 5, 6, 32, 33, 34, 38] {
            assert!(counts.get(&number).is_some_and(|&count| count > 5), "{:?}", counts);
        }
    }
}
