//! How long something takes: readers for some scripts, or whatever can be done in passes; and how that grows.
use crate::clock;
use crate::readers::{self, Reader};
use std::time::Duration;

/// A script, and how many words of the pool are lent for it.
pub struct Case {
    pub tokens: Vec<u16>,
    pub words: usize,
}

/// A sample is as many passes over the scripts as take about so long.
const SAMPLE: Duration = Duration::from_millis(4);

/// Nanoseconds for one pass over the scripts by each reader: the best of some samples, taken by turns.
pub fn best(readers: &[Reader], cases: &[Case], samples: usize) -> Vec<f64> {
    let most = cases.iter().map(|case| case.words).max().unwrap_or(0);
    let mut pool = vec![0; most];
    let mut sample = |which: usize, passes| sample(readers[which], cases, &mut pool, passes);
    best_of(readers.len(), samples, &mut sample)
}

/// The same for so many ways to do something, each by its number: `sample` gives the time of so many passes.
pub fn best_of(
    count: usize,
    samples: usize,
    sample: &mut dyn FnMut(usize, usize) -> Duration,
) -> Vec<f64> {
    let passes: Vec<usize> = (0..count).map(|which| passes_of_a_sample(which, sample)).collect();
    let mut best = vec![f64::INFINITY; count];
    for _ in 0..samples {
        for (which, &passes) in passes.iter().enumerate() {
            let time = sample(which, passes);
            best[which] = best[which].min(time.as_nanos() as f64 / passes as f64);
        }
    }
    best
}

/// How many passes make a sample; those it takes to find out warm the code up.
fn passes_of_a_sample(which: usize, sample: &mut dyn FnMut(usize, usize) -> Duration) -> usize {
    let mut passes = 1;
    while sample(which, passes) < SAMPLE {
        passes *= 2;
    }
    passes
}

/// The time of so many passes over some things, each of which must be taken.
pub fn passes_over<T>(things: &[T], passes: usize, mut taken: impl FnMut(&T) -> bool) -> Duration {
    let start = clock::now();
    for _ in 0..passes {
        for thing in things {
            assert!(taken(thing));
        }
    }
    clock::now() - start
}

/// The line about how the time of a part, as a token or a row, grows from things of so many parts to larger ones: the
/// name of each that is timed, and the one time over the other.
pub fn print_growth<'a>(
    part: &str,
    from: usize,
    to: usize,
    ratios: impl Iterator<Item = (&'a str, f64)>,
) {
    let all: Vec<String> = ratios.map(|(name, ratio)| format!("{} {:.2}", name, ratio)).collect();
    println!(
        "  a {}'s time at {} {}s, over that at {}: {} (1 is linear)",
        part,
        to,
        part,
        from,
        all.join(", ")
    );
}

/// The time of so many passes.
fn sample(reader: Reader, cases: &[Case], pool: &mut [u32], passes: usize) -> Duration {
    match reader {
        Reader::Original => sample_of_original(cases, passes),
        Reader::Ours => sample_of(readers::ours, cases, pool, passes),
        Reader::Strict => sample_of(readers::strict, cases, pool, passes),
        Reader::Plain => sample_of(readers::plain, cases, pool, passes),
    }
}

fn sample_of(
    read: fn(&[u16], &mut [u32]) -> [u64; 4],
    cases: &[Case],
    pool: &mut [u32],
    passes: usize,
) -> Duration {
    let taken = |case: &Case| read(&case.tokens, &mut pool[..case.words])[0] == 0;
    passes_over(cases, passes, taken)
}

/// The tokens are made before, and the trees dropped behind; neither is counted.
fn sample_of_original(cases: &[Case], passes: usize) -> Duration {
    let all = (0..passes).flat_map(|_| cases);
    let mut parsers: Vec<_> = all.map(|case| readers::prepared(&case.tokens)).collect();
    let mut trees = Vec::with_capacity(parsers.len());
    let start = clock::now();
    for parser in &mut parsers {
        trees.push(readers::original(parser));
    }
    clock::now() - start
}
