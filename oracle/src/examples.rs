//! The worked examples of document 01 and of the project's readings, and their check.
use crate::batch::{Answer, Case};
use crate::gen;
use crate::judge::difference;
use crate::model::{Entry, Mode, END, MOST_ROWS, ROW};
use crate::words::*;
use crate::{compare, text, tree};
use std::io;

const TABLE: &str = include_str!("../examples.txt");
const MODES: &str = include_str!("../modes.txt");
const ENDS: &str = include_str!("../ends.txt");

/// Stands in the table of modes for the answer of the old mode.
const SAME: &str = "same";

/// A case and what is to come of it: `no NUMBER PLACE`, `ok PLACE` with or without a tree, or the ends
/// of the rows.
#[derive(Clone)]
pub struct Example {
    pub case: Case,
    pub expected: String,
}

/// The table's examples and the long ones.
pub fn all() -> io::Result<Vec<Example>> {
    let mut examples = vec![];
    for (case, lines) in cases(TABLE, 2)? {
        examples.push(Example { case, expected: lines[1].into() });
    }
    examples.extend(long());
    Ok(examples)
}

/// The examples of the table of modes, each in the old mode and then in strict mode.
pub fn modes() -> io::Result<Vec<Example>> {
    let mut examples = vec![];
    for (case, lines) in cases(MODES, 3)? {
        let strict = if lines[2] == SAME { lines[1] } else { lines[2] };
        examples.push(Example { case: case.clone(), expected: lines[1].into() });
        examples.push(Example { case: case.by(Mode::Strict), expected: strict.into() });
    }
    Ok(examples)
}

/// The examples of the table of ends.
pub fn ends() -> io::Result<Vec<Example>> {
    let cases = cases(ENDS, 2)?.into_iter();
    Ok(cases.map(|(case, lines)| Example { case, expected: lines[1].into() }).collect())
}

/// The cases of a table, each with its lines, of which there are `size`: the first has the entry and
/// the tokens, the others the answers.
fn cases(table: &str, size: usize) -> io::Result<Vec<(Case, Vec<&str>)>> {
    let texts = table.lines().map(str::trim);
    let lines: Vec<&str> =
        texts.filter(|line| !line.starts_with('#') && !line.is_empty()).collect();
    let heads = lines.chunks(size).map(|part| part[0].split_once(' ').unwrap_or((part[0], "")));
    let texts: Vec<&str> = heads.clone().map(|(_, text)| text).collect();
    let arrays = text::to_words(&texts.join("\n"))?;
    let cases = heads.zip(arrays).map(|((head, _), tokens)| case(head, tokens));
    Ok(cases.zip(lines.chunks(size).map(<[&str]>::to_vec)).collect())
}

/// A case from an entry's letter, with a number of rows behind a stroke if they are few.
fn case(head: &str, tokens: Vec<u16>) -> Case {
    let (letter, rows) = head.split_once('/').unwrap_or((head, ""));
    let entry = entry(letter).expect("the table's entries are X, S and W");
    let pool = rows.parse().map_or(gen::enough(&tokens), |rows: usize| rows * ROW);
    Case::old(entry, 0, pool, tokens)
}

/// The entry of a letter.
pub fn entry(letter: &str) -> Option<Entry> {
    gen::ENTRIES.into_iter().find(|&entry| compare::letter(entry).to_string() == letter)
}

/// Examples made of one thing again and again: `before`, a middle, `behind`.
fn repeated(head: &str, count: usize, parts: [&[u16]; 3], expected: &str) -> Example {
    let [before, middle, behind] = parts;
    let mut tokens = before.repeat(count);
    tokens.extend_from_slice(middle);
    tokens.extend(behind.repeat(count));
    tokens.push(EOF);
    Example { case: case(head, tokens), expected: expected.into() }
}

/// The edges of nesting and of length.
fn long() -> Vec<Example> {
    const A: u16 = IDENTIFIER;
    let not = |head, count, expected| repeated(head, count, [&[EXCL], &[A], &[]], expected);
    let tries = |count, expected| {
        let behind = [RBRACE, CATCH, A, LBRACE, RBRACE];
        repeated("S", count, [&[TRY, LBRACE], &[EMPTY], &behind], expected)
    };
    let ladder = [A, EQ, A, LOR, A, LAND, A, OR, A, AND, A, EEQ, A, LT, A, PLUS, A, MUL, A];
    let climb = |count, expected| repeated("X", count, [&[EXCL], &ladder, &[]], expected);
    let names = |rows: usize, expected| {
        repeated(&format!("W/{}", rows), LONGEST - 1, [&[A], &[], &[]], expected)
    };
    vec![
        not("X", 63, "ok 63"),
        not("X", 64, "no 2 64"),
        not("S", 62, "ok 62"),
        not("S", 63, "no 2 63"),
        not("W", 62, "ok 63"),
        not("W", 63, "no 2 63"),
        tries(63, "ok 441"),
        tries(64, "no 2 128"),
        climb(54, "ok 72"),
        climb(55, "no 2 73"),
        names(MOST_ROWS, "ok 32767"),
        names(MOST_ROWS - 1, "no 3 32767"),
        repeated("X", 9000, [&[A, EQ], &[A], &[]], "ok 18000"),
        repeated("X", 9000, [&[], &[A], &[LPAREN, RPAREN]], "ok 18000"),
        repeated("X", 9000, [&[], &[A], &[INCR]], "ok 9000"),
    ]
}

/// What differs from what was expected, or between model and original; None where the answer is the
/// expected one and only the model can give it.
pub fn check(example: &Example) -> Option<Result<(), String>> {
    let answer = example.case.answer();
    let outcomes = outcomes(&answer);
    if !outcomes.contains(&example.expected) {
        let told = outcomes.join("\n  or       ");
        return Some(Err(format!("expected {}\n  model    {}", example.expected, told)));
    }
    difference(&example.case, &answer)
}

/// An answer in the words of the tables: without and with its tree, and by the ends of its rows.
fn outcomes(answer: &Answer) -> Vec<String> {
    if answer.words[0] != 0 {
        return vec![format!("no {} {}", answer.words[0], answer.words[1])];
    }
    let rows = answer.row_arrays();
    let accepted = format!("ok {}", answer.words[3]);
    let full = format!("{} {}", accepted, tree::line(&rows, answer.root()));
    let ends: Vec<String> = rows.iter().map(|row| row[END].to_string()).collect();
    vec![accepted, full, format!("ends {}", ends.join(" "))]
}

#[cfg(test)]
mod tests {
    use super::*;

    #[test]
    fn every_example_holds() {
        crate::on_large_stack(|| {
            let (examples, modes, ends) = (all().unwrap(), modes().unwrap(), ends().unwrap());
            assert!(examples.len() > 60 && modes.len() > 40 && ends.len() > 40);
            for example in [examples, modes, ends].concat() {
                if let Some(Err(what)) = check(&example) {
                    panic!("{}", what);
                }
            }
        });
    }

    #[test]
    fn a_wrong_expectation_is_noticed() {
        for (expected, holds) in
            [("ok 0", true), ("ends 0", true), ("ok 1", false), ("ends 1", false)]
        {
            let example = repeated("X", 1, [&[IDENTIFIER], &[], &[]], expected);
            assert_eq!(check(&example).unwrap().is_ok(), holds, "{}", expected);
        }
    }
}
