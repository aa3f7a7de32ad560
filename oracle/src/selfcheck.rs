//! The self-check: model and original side by side, on every kind of case.
use crate::batch::{Answer, Case};
use crate::compare::{describe, SHOWN};
use crate::ends;
use crate::examples;
use crate::gen::{self, Kind, Wish};
use crate::judge::difference;
use crate::kinds;
use crate::model::{Mode, ROW};
use crate::signs::Missing;
use std::collections::BTreeMap;
use std::io;

/// How many cases of each kind in each mode; the exhaustive kind has all.
const PLAN: [(Kind, Option<usize>); 8] = [
    (Kind::Short, None),
    (Kind::Valid, Some(80_000)),
    (Kind::Damaged, Some(120_000)),
    (Kind::Loose, Some(80_000)),
    (Kind::Noise, Some(80_000)),
    (Kind::Chains, Some(40_000)),
    (Kind::Nesting, Some(40_000)),
    (Kind::Limits, Some(10_000)),
];

/// The refusals that the original gives too; each must be met.
const SHARED: std::ops::RangeInclusive<u32> = 10..=29;

/// In an answer of so many rows at most, each row's end is held to the refusal where it is lacking.
const MOST_TRIED: usize = 200;

#[derive(Default)]
struct Tally {
    compared: usize,
    skipped: usize,
    differing: usize,
    before: [usize; 3],
    /// The rows whose end was held to a refusal.
    tried: usize,
    refusals: BTreeMap<u32, usize>,
    kinds: BTreeMap<u32, usize>,
    missing: Missing,
}

/// Compares everything with the given seed; true if nothing differs and everything was met.
pub fn run(seed: u64) -> io::Result<bool> {
    let mut all = Tally::default();
    for example in [examples::all()?, examples::modes()?, examples::ends()?].concat() {
        all.note(&example.case, examples::check(&example));
        all.try_ends(&example.case, &example.case.answer());
    }
    all.section("examples");
    for mode in [Mode::Old, Mode::Strict] {
        for (kind, count) in PLAN {
            gen::cases(&Wish { count, mode, ..Wish::of(kind, seed) })
                .for_each(|case| all.check(&case));
            all.section(&format!("{:?}, {:?} mode", kind, mode).to_lowercase());
        }
    }
    let met = all.report();
    println!("{} compared, {} differing", all.compared, all.differing);
    Ok(met && all.differing == 0)
}

impl Tally {
    fn check(&mut self, case: &Case) {
        let answer = case.answer();
        self.count(case, &answer);
        self.note(case, difference(case, &answer));
        self.try_ends(case, &answer);
    }

    /// Holds the ends of an answer's rows to the refusals of the same case without them.
    fn try_ends(&mut self, case: &Case, answer: &Answer) {
        let rows = answer.rows.len() / ROW;
        if rows <= MOST_TRIED {
            self.tried += rows;
            if let Some(what) = ends::unlike_refusals(case, answer) {
                self.note(case, Some(Err(what)));
            }
        }
    }

    /// Counts a verdict and prints the first that differ.
    fn note(&mut self, case: &Case, verdict: Option<Result<(), String>>) {
        match verdict {
            None => self.skipped += 1,
            Some(Ok(())) => self.compared += 1,
            Some(Err(what)) => {
                self.compared += 1;
                self.differing += 1;
                if self.differing <= SHOWN {
                    println!("{}\n  {}", describe(case), what);
                }
            }
        }
    }

    /// Prints what was counted since the last section.
    fn section(&mut self, name: &str) {
        let now = [self.compared, self.skipped, self.differing];
        let [compared, skipped, differing] = [0, 1, 2].map(|index| now[index] - self.before[index]);
        self.before = now;
        println!(
            "{}: {} compared, {} by the model only, {} differing",
            name, compared, skipped, differing
        );
    }

    fn count(&mut self, case: &Case, answer: &Answer) {
        *self.refusals.entry(answer.words[0]).or_default() += 1;
        self.missing.count(case, answer);
        for row in answer.rows.chunks(ROW) {
            *self.kinds.entry(row[0]).or_default() += 1;
        }
    }

    /// Prints how often each answer, form and kind of row was met; false if one never was.
    fn report(&self) -> bool {
        let list = |counts: &BTreeMap<u32, usize>| {
            let pairs: Vec<String> =
                counts.iter().map(|(number, count)| format!("{}: {}", number, count)).collect();
            pairs.join(", ")
        };
        println!("answers by number: {}", list(&self.refusals));
        println!("wrong signs by form: {}", self.missing);
        println!("rows by kind: {}", list(&self.kinds));
        println!("ends held to the refusal without the row: {}", self.tried);
        let answers = SHARED.chain([0]).all(|n| self.refusals.contains_key(&n));
        let rows = kinds::ALL.iter().all(|kind| self.kinds.contains_key(kind));
        let met = answers && rows && self.missing.has_all();
        if !met {
            println!("not every answer, form and kind was met");
        }
        met
    }
}
