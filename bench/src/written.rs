//! The tables of the check and the writer: every shape and size, how time grows; and one run between two marks.
use crate::count::{count_begin, count_end};
use crate::readers::{MOST_ROWS, ROW};
use crate::timing;
use crate::trees::{tree, Shape};
use crate::writers::{ours, Answer, Writer};
use std::time::Duration;

/// How many rows the trees have.
pub const SIZES: [usize; 4] = [100, 1000, 10000, MOST_ROWS];

/// As many different trees of a size are taken one after the other as have together about so many rows.
pub const ROWS: usize = MOST_ROWS;

/// What the functions for threads with little stack look at.
const SMALL_ROWS: usize = crate::sizes::SMALL_ROWS;

/// Stands in every word before a writer is asked.
const FILLING: u16 = 0xA5A5;

/// A tree in a pool of just its rows, its root the last, and how many tokens it is written as.
struct Case {
    pool: Vec<u32>,
    tokens: usize,
}

/// The buffers for what is written.
struct Room {
    words: Vec<u16>,
    places: Vec<u32>,
}

impl Room {
    fn new(words: usize, places: usize) -> Room {
        Room { words: vec![FILLING; words], places: vec![u32::from(FILLING); places] }
    }
}

/// Trees of a shape and a size, after all writers agree about each.
fn cases(shape: Shape, rows: usize) -> Vec<Case> {
    let made = |number| {
        let pool = tree(shape, rows, number);
        let tokens = tokens_of(&pool, rows);
        Case { pool, tokens }
    };
    (0..(ROWS / rows) as u64).map(made).collect()
}

/// How many tokens a tree is written as; stops the bench if it isn't one, or if the writers differ.
fn tokens_of(pool: &[u32], root: usize) -> usize {
    let plenty = crate::sizes::ROW_TOKENS * (pool.len() / ROW);
    let answer = agreed(pool, root, plenty, plenty);
    assert_eq!(answer[0], 0, "no tree: {:?}", answer);
    let tokens = answer[1] as usize;
    assert_eq!(agreed(pool, root, tokens, tokens), answer);
    assert_eq!(agreed(pool, root, tokens - 1, tokens), [32, 0, 0, 0]);
    assert_eq!(agreed(pool, root, tokens, tokens - 1), [32, 0, 0, 0]);
    tokens
}

/// What ours and the plain C writer make of a tree, the answer and every word of both slices.
fn agreed(pool: &[u32], root: usize, words: usize, places: usize) -> Answer {
    let by = |write: fn(&[u32], usize, &mut [u16], &mut [u32]) -> Answer| {
        let mut room = Room::new(words, places);
        let answer = write(pool, root, &mut room.words, &mut room.places);
        (answer, room.words, room.places)
    };
    let plain = by(|pool, root, words, places| Writer::PlainWrite.run(pool, root, words, places));
    let checked = Writer::PlainCheck.run(pool, root, &mut [], &mut []);
    if Writer::all().iter().any(|writer| writer.is_ours()) {
        assert!(by(ours::write) == plain, "this writer and the C writer differ");
        assert!(ours::check(pool, root) == checked, "this check and the C check differ");
        if pool.len() / ROW <= SMALL_ROWS {
            assert!(by(ours::write_small) == plain, "the small writer differs");
            assert!(ours::check_small(pool, root) == checked, "the small check differs");
        }
    }
    plain.0
}

/// One line of the table.
struct Line {
    rows: usize,
    trees: usize,
    tokens: usize,
    /// Nanoseconds for a row, in the order of the writers.
    times: Vec<f64>,
}

pub fn print(samples: usize) {
    let writers = Writer::all();
    println!("Processor time, best of {} samples. Each tree is in a pool of just its rows, and lent just the room that", samples);
    println!("its tokens take.\n\n{:32}ns a row\n{}", "", head(&writers));
    for shape in Shape::SCRIPTS {
        let measured = |&rows: &usize| line(shape, rows, &writers, samples);
        let lines: Vec<Line> = SIZES.iter().map(measured).collect();
        for line in &lines {
            println!("{}", row(shape, line, &writers));
        }
        print_growth(&lines, &writers);
    }
}

fn line(shape: Shape, rows: usize, writers: &[Writer], samples: usize) -> Line {
    let cases = cases(shape, rows);
    let tokens = cases.iter().map(|case| case.tokens).sum();
    let most = cases.iter().map(|case| case.tokens).max().unwrap_or(0);
    let mut room = Room::new(most, most);
    let mut sample = |which: usize, passes| sample(writers[which], &cases, &mut room, passes);
    let times = timing::best_of(writers.len(), samples, &mut sample);
    let each = (cases.len() * rows) as f64;
    Line { rows, trees: cases.len(), tokens, times: times.iter().map(|time| time / each).collect() }
}

/// The time of so many passes over the trees.
fn sample(writer: Writer, cases: &[Case], room: &mut Room, passes: usize) -> Duration {
    timing::passes_over(cases, passes, |case| {
        let root = case.pool.len() / ROW;
        let (words, places) = (&mut room.words[..case.tokens], &mut room.places[..case.tokens]);
        writer.run(&case.pool, root, words, places)[0] == 0
    })
}

fn head(writers: &[Writer]) -> String {
    let names: String = writers.iter().map(|writer| format!("{:>13}", writer.name())).collect();
    let ratios = if cfg!(feature = "ours") { "  check/plain  write/plain" } else { "" };
    format!("{:<6}{:>7}{:>7}{:>10}  {}{}", "shape", "rows", "trees", "tokens", names, ratios)
}

fn row(shape: Shape, line: &Line, writers: &[Writer]) -> String {
    let each: String = line.times.iter().map(|time| format!("{:>13.2}", time)).collect();
    let time = |writer| writers.iter().position(|&there| there == writer).map(|at| line.times[at]);
    let ratio = |ours, plain| match (time(ours), time(plain)) {
        (Some(ours), Some(plain)) => format!("{:>13.2}", ours / plain),
        _ => String::new(),
    };
    let ratios =
        ratio(Writer::OurCheck, Writer::PlainCheck) + &ratio(Writer::OurWrite, Writer::PlainWrite);
    let tokens = line.tokens as f64 / line.trees as f64;
    format!(
        "{:<6}{:>7}{:>7}{:>10.1}  {}{}",
        shape.name(),
        line.rows,
        line.trees,
        tokens,
        each,
        ratios
    )
}

/// A row's time in the largest tree, beside that in the smallest.
fn print_growth(lines: &[Line], writers: &[Writer]) {
    let (from, to) = (&lines[0], &lines[lines.len() - 1]);
    let grown = |(at, writer): (usize, &Writer)| (writer.name(), to.times[at] / from.times[at]);
    timing::print_growth("row", from.rows, to.rows, writers.iter().enumerate().map(grown));
}

/// Runs a writer once between the marks, on a tree of a shape and a size.
pub fn once(writer: Writer, shape: Shape, rows: usize) {
    let pool = tree(shape, rows, 0);
    let tokens = tokens_of(&pool, rows);
    let mut room = Room::new(tokens, tokens);
    count_begin();
    let answer = writer.run(&pool, rows, &mut room.words, &mut room.places);
    count_end();
    assert_eq!(answer[0], 0);
    println!("{} {} {} {}", writer.name(), shape.name(), rows, tokens);
}
