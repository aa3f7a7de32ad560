//! The worked examples of the check and of the written form, and their check.
use super::case::Case;
use super::judge::{judge, Judged};
use crate::model::ROW;
use crate::text;
use std::io;
use std::num::ParseIntError;

const TABLE: &str = include_str!("../../trees.txt");

/// A case and what is to come of it.
pub struct Example {
    pub case: Case,
    expected: Expected,
}

#[derive(Debug, PartialEq)]
enum Expected {
    Refused(u32, usize),
    Written(Vec<u16>, Vec<u32>),
}

/// The pool of rows in the text form: words with blanks between, zeros behind a row's last other word
/// left out, a stroke between rows.
pub fn read_rows(text: &str) -> Result<Vec<u32>, ParseIntError> {
    let mut pool = vec![];
    for row in text.split('/') {
        let end = pool.len() + ROW;
        for word in row.split_whitespace() {
            pool.push(word.parse()?);
        }
        pool.resize(end, 0);
    }
    Ok(pool)
}

/// The pool of rows that are right.
pub fn pool_of(rows: &str) -> Vec<u32> {
    read_rows(rows).expect("rows are numbers")
}

/// The table's examples.
pub fn all() -> io::Result<Vec<Example>> {
    let lines: Vec<&str> =
        TABLE.lines().filter(|line| !line.starts_with('#') && !line.is_empty()).collect();
    let texts: Vec<&str> = lines.iter().filter_map(|line| form(line)).collect();
    let mut arrays = text::to_words(&texts.join("\n"))?.into_iter();
    let (mut pool, mut examples) = (vec![], vec![]);
    for line in lines {
        if !line.starts_with(' ') {
            pool = pool_of(line);
            continue;
        }
        let written = form(line).map(|_| arrays.next().expect("each text is an array"));
        examples.push(example(&pool, line, written));
    }
    Ok(examples)
}

/// The text of a written form in an example's line: between the root and the places.
fn form(line: &str) -> Option<&str> {
    let (_, answer) = line.strip_prefix("   ")?.split_once(':')?;
    let (text, _) = answer.split_once('|').unwrap_or((answer, ""));
    (!answer.starts_with(" no ")).then_some(text)
}

/// The example of a line: the root, with the room behind a stroke if it is little; and the answer.
fn example(pool: &[u32], line: &str, written: Option<Vec<u16>>) -> Example {
    let (head, answer) = line.trim().split_once(':').expect("a colon stands behind the root");
    let (root, room) = head.split_once('/').unwrap_or((head, ""));
    let mut case = Case::roomy(pool.to_vec(), number(root));
    if let Some((words, places)) = room.split_once(',') {
        (case.words, case.places) = (number(words), number(places));
    }
    let expected = match written {
        None => {
            let numbers: Vec<usize> = answer[4..].split(' ').map(number).collect();
            Expected::Refused(numbers[0] as u32, numbers[1])
        }
        Some(words) => {
            let places = answer.split_once('|').map_or("", |(_, places)| places);
            let places = places_of(places, words.len());
            Expected::Written(words, places)
        }
    };
    Example { case, expected }
}

/// The places of so many tokens: `TOKEN:PLACE` for those that aren't 0.
fn places_of(text: &str, count: usize) -> Vec<u32> {
    let mut places = vec![0; count];
    for pair in text.split_whitespace() {
        let (token, place) = pair.split_once(':').expect("a place has a token");
        places[number(token)] = number(place) as u32;
    }
    places
}

fn number(text: &str) -> usize {
    text.trim().parse().expect("a number")
}

/// Judges an example; or says what differs from what was expected.
pub fn check(example: &Example) -> Result<Judged, String> {
    let judged = judge(&example.case)?;
    let found = match &judged.form {
        Some(form) if judged.number == 0 => {
            Expected::Written(form.written.words.clone(), form.written.places.clone())
        }
        _ => Expected::Refused(judged.number, judged.place),
    };
    if found != example.expected {
        return Err(format!("expected {:?}\n  model    {:?}", example.expected, found));
    }
    Ok(judged)
}

#[cfg(test)]
mod tests {
    use super::*;

    #[test]
    fn every_example_holds() {
        let examples = all().unwrap();
        assert!(examples.len() > 60, "{}", examples.len());
        let told = |example: Example| {
            check(&example).err().map(|what| format!("{}: {}", example.case, what))
        };
        let wrong: Vec<String> = examples.into_iter().filter_map(told).collect();
        assert!(wrong.is_empty(), "{}", wrong.join("\n"));
    }

    #[test]
    fn a_wrong_expectation_is_noticed() {
        let pool = pool_of("2 0 3");
        let right = || Some(vec![0x700, 0x200]);
        assert!(check(&example(&pool, "   1: a | 0:3", right())).is_ok());
        assert!(check(&example(&pool, "   1: a | 0:4", right())).is_err());
        let wrong = Some(vec![0x700, 0x700, 0x200]);
        assert!(check(&example(&pool, "   1: b c | 0:3", wrong)).is_err());
        assert!(check(&example(&pool, "   1: no 38 1", None)).is_err());
        assert!(check(&example(&pool, "   1/1,2: no 32 0", None)).is_ok());
        assert!(check(&example(&pool, "   1/2,1: no 32 0", None)).is_ok());
    }
}
