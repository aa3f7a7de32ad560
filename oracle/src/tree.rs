//! Trees of rows for people: one line, or a line a row.
use crate::kinds::*;
use crate::model::{Row, CHILDREN, END, NEXT};
use crate::original::UNKNOWN;

/// The references of one child slot: the child and those behind it by next words.
fn slot(rows: &[Row], child: u32) -> Vec<u32> {
    let mut references = vec![];
    let mut reference = child;
    while reference != 0 {
        references.push(reference);
        reference = rows[reference as usize - 1][NEXT];
    }
    references
}

/// The child slots of a row, those at the end that are empty left out.
fn slots(rows: &[Row], row: &Row) -> Vec<Vec<u32>> {
    let children = &row[CHILDREN];
    let count = children.iter().rposition(|&child| child != 0).map_or(0, |last| last + 1);
    children[..count].iter().map(|&child| slot(rows, child)).collect()
}

/// A tree on one line: `kind/mark@place(child, child)`, a list's rows with blanks between.
pub fn line(rows: &[Row], reference: u32) -> String {
    if reference == 0 {
        return "-".into();
    }
    let row = &rows[reference as usize - 1];
    let mark = if row[1] == 0 { String::new() } else { format!("/{}", row[1]) };
    let list = |references: Vec<u32>| {
        let items: Vec<String> = references.iter().map(|&child| line(rows, child)).collect();
        if items.is_empty() {
            "-".into()
        } else {
            items.join(" ")
        }
    };
    let children: Vec<String> = slots(rows, row).into_iter().map(list).collect();
    let inside =
        if children.is_empty() { String::new() } else { format!("({})", children.join(", ")) };
    format!("{}{}@{}{}", word(row[0]), mark, row[2], inside)
}

/// A tree with a line a row, children indented under their slot's name.
pub fn lines(rows: &[Row], reference: u32, depth: usize, name: &str) -> String {
    if reference == 0 {
        return String::new();
    }
    let row = &rows[reference as usize - 1];
    let mut text = format!("{:depth$}{}{}\n", "", name, label(row), depth = 2 * depth);
    for (index, references) in slots(rows, row).into_iter().enumerate() {
        for child in references {
            text += &lines(rows, child, depth + 1, &format!("c{} ", index));
        }
    }
    text
}

/// A row's kind, mark, flags, place and end in words.
fn label(row: &Row) -> String {
    let mut text = word(row[0]).to_string();
    let mark = row[1] % GROUPED;
    match (row[0], mark) {
        (CALL, flags) => {
            text += if flags & THREAD != 0 { " thread" } else { "" };
            text += if flags & ASYNC != 0 { " async" } else { "" };
        }
        (BOOL, truth) => text += if truth == 1 { " true" } else { " false" },
        (SHELL, raw) => text += if raw == 1 { " raw" } else { "" },
        (INFIX | PREFIX | SUFFIX, operator) => text += &format!(" {}", operator),
        _ => (),
    }
    text += if row[1] >= GROUPED { " grouped" } else { "" };
    if row[2] != UNKNOWN {
        text += &format!(" at {}", row[2]);
    }
    if row[END] != UNKNOWN {
        text += &format!(" to {}", row[END]);
    }
    text
}
