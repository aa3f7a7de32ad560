//! The tables of times: every kind and size, how time grows, and what clearing the pool costs.
use crate::agree;
use crate::readers::{Reader, MOST_ROWS, ROW};
use crate::scripts::{script, Kind};
use crate::timing::{self, Case};

const SIZES: [usize; 6] = [100, 300, 1000, 3000, 10000, 32768];

/// As many different scripts of a size are read one after the other as have together about so many tokens.
const TOKENS: usize = 32768;

/// The rows that the program `outline` lends.
const OUTLINE_ROWS: usize = 1800;

/// One line of the main table.
struct Line {
    size: usize,
    scripts: usize,
    tokens: usize,
    rows: usize,
    /// Nanoseconds for all the scripts, in the order of the readers.
    times: Vec<f64>,
}

impl Line {
    /// The time of a reader; it must be one of the readers.
    fn time(&self, readers: &[Reader], reader: Reader) -> f64 {
        let at = readers.iter().position(|&there| there == reader);
        self.times[at.expect("the reader is there")]
    }

    /// Nanoseconds for a token, by a reader.
    fn each(&self, readers: &[Reader], reader: Reader) -> f64 {
        self.time(readers, reader) / self.tokens as f64
    }
}

pub fn print(samples: usize) {
    let readers = Reader::timed();
    println!(
        "Processor time, best of {} samples. Each script is lent a pool of just the rows it takes.",
        samples
    );
    println!("{}", head(&readers));
    for kind in Kind::ALL {
        let measured = |&size: &usize| line(kind, size, &readers, samples);
        let lines: Vec<Line> = SIZES.iter().map(measured).collect();
        for line in &lines {
            println!("{}", row(kind, line, &readers));
        }
        print_growth(&lines, &readers);
    }
    print_clearing(&readers, samples);
}

/// Scripts of a kind and a size, with the rows that each takes.
fn scripts(kind: Kind, size: usize) -> Vec<(Vec<u16>, usize)> {
    let made = |number| {
        let tokens = script(kind, size, number);
        assert_eq!(tokens.len(), size);
        let rows = agree::rows_of(&tokens);
        (tokens, rows)
    };
    (0..(TOKENS / size) as u64).map(made).collect()
}

fn line(kind: Kind, size: usize, readers: &[Reader], samples: usize) -> Line {
    let scripts = scripts(kind, size);
    let rows = scripts.iter().map(|(_, rows)| rows).sum();
    let case = |(tokens, rows)| Case { tokens, words: rows * ROW };
    let cases: Vec<Case> = scripts.into_iter().map(case).collect();
    let times = timing::best(readers, &cases, samples);
    Line { size, scripts: cases.len(), tokens: cases.len() * size, rows, times }
}

fn head(readers: &[Reader]) -> String {
    let names: String = readers.iter().map(|reader| format!("{:>10}", reader.name())).collect();
    let ratios = if readers.contains(&Reader::Ours) {
        "  original/ours  ours/plain  ours, ns a row"
    } else {
        "  original/plain"
    };
    let above = format!("{:38}ns a token", "");
    format!(
        "\n{}\n{:<11}{:>7}{:>9}{:>9}  {}{}",
        above, "kind", "tokens", "scripts", "rows", names, ratios
    )
}

fn row(kind: Kind, line: &Line, readers: &[Reader]) -> String {
    let (original, plain) =
        (line.time(readers, Reader::Original), line.time(readers, Reader::Plain));
    let each = |&reader: &Reader| format!("{:>10.2}", line.each(readers, reader));
    let times: String = readers.iter().map(each).collect();
    let ratios = if readers.contains(&Reader::Ours) {
        let ours = line.time(readers, Reader::Ours);
        format!("{:>15.2}{:>12.2}{:>16.2}", original / ours, ours / plain, ours / line.rows as f64)
    } else {
        format!("{:>16.2}", original / plain)
    };
    let rows = line.rows as f64 / line.scripts as f64;
    format!(
        "{:<11}{:>7}{:>9}{:>9.1}  {}{}",
        kind.name(),
        line.size,
        line.scripts,
        rows,
        times,
        ratios
    )
}

/// A token's time in the largest script, beside that in the smallest.
fn print_growth(lines: &[Line], readers: &[Reader]) {
    let (from, to) = (&lines[0], &lines[lines.len() - 1]);
    let grown =
        |&reader: &Reader| (reader.name(), to.each(readers, reader) / from.each(readers, reader));
    timing::print_growth("token", from.size, to.size, readers.iter().map(grown));
}

/// The same small scripts with larger and larger pools: all words of a pool are cleared at each call.
fn print_clearing(readers: &[Reader], samples: usize) {
    let pooled: Vec<Reader> =
        readers.iter().copied().filter(|&reader| reader != Reader::Original).collect();
    let scripts = scripts(Kind::Statements, SIZES[0]);
    let most = scripts.iter().map(|(_, rows)| *rows).max().unwrap_or(0);
    let names: String = pooled.iter().map(|reader| format!("{:>12}", reader.name())).collect();
    println!("\nWhat clearing costs: statements of {} tokens, ns a script", SIZES[0]);
    println!("{:>10}{:>12}{}", "pool rows", "pool words", names);
    for rows in [most, OUTLINE_ROWS, MOST_ROWS] {
        let case =
            |(tokens, _): &(Vec<u16>, usize)| Case { tokens: tokens.clone(), words: rows * ROW };
        let cases: Vec<Case> = scripts.iter().map(case).collect();
        let times = timing::best(&pooled, &cases, samples);
        let each = |time: &f64| format!("{:>12.0}", time / cases.len() as f64);
        let times: String = times.iter().map(each).collect();
        println!("{:>10}{:>12}{}", rows, rows * ROW, times);
    }
}
