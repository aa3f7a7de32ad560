//! The table of the writers of JSON: every shape and size, how time grows; one run between two marks; and the texts.
use crate::columns;
use crate::count::{count_begin, count_end};
use crate::json_agree::text_of;
use crate::json_trees::{tree, Tree};
use crate::json_writers::JsonWriter;
use crate::timing;
use crate::trees::Shape;
use crate::written::{ROWS, SIZES};
use std::path::Path;

/// A tree, and how long its text is.
struct Case {
    tree: Tree,
    length: usize,
}

/// One line of the table.
struct Line {
    rows: usize,
    trees: usize,
    /// Bytes of a text, and of a file, on the average.
    text: usize,
    file: usize,
    /// Nanoseconds for a byte of text, in the order of the writers.
    times: Vec<f64>,
}

pub fn print(samples: usize) {
    let writers = JsonWriter::timed();
    println!(
        "Processor time, best of {} samples. Each tree is in a pool of just its rows, and lent just the bytes of its text.",
        samples
    );
    let names: Vec<&str> = writers.iter().map(|writer| writer.name).collect();
    println!("\n{:<41}ns a byte of text\n{}", "Trees as JSON", head(&names));
    for shape in Shape::JSON {
        let measured = |&rows: &usize| line(shape, rows, &writers, samples);
        let lines: Vec<Line> = SIZES.iter().map(measured).collect();
        for line in &lines {
            println!("{}", row(shape, line));
        }
        let (from, to) = (&lines[0], &lines[lines.len() - 1]);
        columns::print_growth(&names, (from.text, &from.times), (to.text, &to.times));
    }
}

/// Trees of a shape and a size, after all writers agree about each.
fn cases(shape: Shape, rows: usize) -> Vec<Case> {
    let made = |number| {
        let tree = tree(shape, rows, number);
        let length = text_of(&tree).len();
        Case { tree, length }
    };
    (0..(ROWS / rows) as u64).map(made).collect()
}

fn line(shape: Shape, rows: usize, writers: &[JsonWriter], samples: usize) -> Line {
    let cases = cases(shape, rows);
    let most = cases.iter().map(|case| case.length).max().unwrap_or(0);
    let mut text = vec![0; most];
    let mut sample = |which: usize, passes| {
        let written =
            |case: &Case| (writers[which].write)(&case.tree, &mut text[..case.length])[0] == 0;
        timing::passes_over(&cases, passes, written)
    };
    let times = timing::best_of(writers.len(), samples, &mut sample);
    let bytes: usize = cases.iter().map(|case| case.length).sum();
    let files: usize = cases.iter().map(|case| case.tree.file.len()).sum();
    let trees = cases.len();
    let times = times.iter().map(|time| time / bytes as f64).collect();
    Line { rows, trees, text: bytes / trees, file: files / trees, times }
}

fn head(names: &[&str]) -> String {
    let last = columns::heads(names);
    format!("{:<6}{:>7}{:>7}{:>10}{:>8}{}", "shape", "rows", "trees", "text", "file", last)
}

fn row(shape: Shape, line: &Line) -> String {
    let Line { rows, trees, text, file, times } = line;
    let last = columns::times(times);
    format!("{:<6}{:>7}{:>7}{:>10}{:>8}{}", shape.name(), rows, trees, text, file, last)
}

/// Has a writer write a tree of a shape and a size once between the marks.
pub fn once(writer: JsonWriter, shape: Shape, rows: usize) {
    let tree = tree(shape, rows, 0);
    let mut text = text_of(&tree);
    count_begin();
    let answer = (writer.write)(&tree, &mut text);
    count_end();
    assert_eq!(answer[0], 0);
    println!("{} {} {} {}", writer.name, shape.name(), text.len(), rows);
}

/// Writes a text of each shape and size to a file of its own: `wide-100.json` and so on.
pub fn write_texts(folder: &str) {
    for shape in Shape::JSON {
        for rows in SIZES {
            let path = Path::new(folder).join(format!("{}-{}.json", shape.name(), rows));
            let text = text_of(&tree(shape, rows, 0));
            std::fs::write(&path, text).unwrap_or_else(|error| panic!("{:?}: {}", path, error));
        }
    }
}
