//! The self-check of trees: every kind of case in every way that the model has, and the round trip.
use super::case::Case;
use super::examples;
use super::gen::{self, Kind};
use super::judge::{judge, Judged};
use super::tally::Tally;
use crate::compare::SHOWN;
use std::io;

/// How many cases of each kind; the table has all.
const PLAN: [(Kind, Option<usize>); 8] = [
    (Kind::Table, None),
    (Kind::Grown, Some(200_000)),
    (Kind::Parsed, Some(60_000)),
    (Kind::Nests, Some(40_000)),
    (Kind::Large, Some(150)),
    (Kind::Broken, Some(400_000)),
    (Kind::Noise, Some(150_000)),
    (Kind::Limits, Some(20_000)),
];

/// Judges everything with the given seed; true if nothing differs and everything was met.
pub fn run(seed: u64) -> io::Result<bool> {
    let mut sum = Sum::default();
    let examples = examples::all()?;
    sum.section("examples", examples.iter().map(|one| told(&one.case, examples::check(one))));
    for (kind, count) in PLAN {
        let cases = gen::cases(kind, seed, count);
        let name = format!("{:?}", kind).to_lowercase();
        sum.section(&name, cases.map(|case| told(&case, judge(&case))));
    }
    println!("together: {}", sum.all);
    let met = sum.all.has_all();
    if !met {
        println!("not every answer, fault and kind of root was met");
    }
    println!("{} differing", sum.differing);
    Ok(met && sum.differing == 0)
}

/// A verdict that names its case if something differs.
fn told(case: &Case, verdict: Result<Judged, String>) -> Result<Judged, String> {
    verdict.map_err(|what| format!("{}\n  {}", case, what))
}

#[derive(Default)]
struct Sum {
    all: Tally,
    differing: usize,
}

impl Sum {
    /// Counts some verdicts, and prints the counts and the first that differ.
    fn section(&mut self, name: &str, verdicts: impl Iterator<Item = Result<Judged, String>>) {
        let mut tally = Tally::default();
        for verdict in verdicts {
            match verdict {
                Ok(judged) => tally.count(&judged),
                Err(what) => {
                    self.differing += 1;
                    if self.differing <= SHOWN {
                        println!("{}", what);
                    }
                }
            }
        }
        println!("{}: {}", name, tally);
        self.all.add(tally);
    }
}
