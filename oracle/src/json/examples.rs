//! The worked examples of JSON texts, and their check.
use super::case::Case;
use super::judge::{judge, Judged};
use crate::files::{examples::bytes, tagged};
use crate::trees::examples::pool_of;

const TABLE: &str = include_str!("../../json.txt");

/// A case and what is to come of it.
pub struct Example {
    pub case: Case,
    expected: Expected,
}

#[derive(Debug, PartialEq)]
enum Expected {
    Refused(u32, usize),
    Text(String),
}

/// The examples of the table, and the long ones.
pub fn all() -> Vec<Example> {
    let (mut rows, mut file, mut examples) = ("", "", vec![]);
    for line in TABLE.lines().filter(|line| !line.starts_with('#') && !line.is_empty()) {
        match line.strip_prefix("   ") {
            Some(answer) => examples.push(example(pool_of(rows), file_of(file), answer)),
            None if line.starts_with('[') => file = line,
            None => rows = line,
        }
    }
    examples.into_iter().chain(long()).collect()
}

/// The bytes of a file in square brackets.
fn file_of(text: &str) -> Vec<u8> {
    let inner = text.strip_prefix('[').and_then(|text| text.strip_suffix(']'));
    let parts = inner.expect("a file stands in brackets").split_whitespace();
    parts.flat_map(bytes).collect()
}

/// The example of a line: the root, with the room behind a stroke if it is given; and the answer.
fn example(pool: Vec<u32>, file: Vec<u8>, line: &str) -> Example {
    let (head, answer) = line.split_once(": ").expect("a colon stands behind the root");
    let (root, room) = head.split_once('/').map_or((head, None), |(root, room)| (root, Some(room)));
    let mut case = Case::roomy(pool, number(root), file);
    case.room = room.map_or(case.room, number);
    let expected = match answer.strip_prefix("no ") {
        Some(refusal) => {
            let (refused, place) = refusal.split_once(' ').expect("a number and a place");
            Expected::Refused(number(refused) as u32, number(place))
        }
        None => Expected::Text(plain(answer)),
    };
    Example { case, expected }
}

/// A text in which bytes in hexadecimal may stand in pointed brackets.
fn plain(text: &str) -> String {
    let mut found = vec![];
    for (index, part) in text.split(['<', '>']).enumerate() {
        found.extend(if index % 2 == 0 { part.as_bytes().to_vec() } else { bytes(part) });
    }
    String::from_utf8(found).expect("texts are Unicode")
}

fn number(text: &str) -> usize {
    text.parse().expect("a number")
}

/// A form that can stand around itself: the innermost row and its text, the rows of each form around the
/// row of another, how many they are, and its text around another's.
struct Form {
    core: (&'static str, &'static str),
    rows: fn(usize) -> String,
    width: usize,
    around: fn(String) -> String,
}

const NAME: &str = "{\"kind\":\"identifier\",\"mark\":0,\"place\":0,\"payload\":\"a\"}";
const NONE: &str = "{\"kind\":\"none\",\"mark\":0,\"place\":0}";
const EMPTY: &str = "{\"kind\":\"array\",\"mark\":0,\"place\":0,\"c0\":[]}";

/// `! a`, `[ [ ] ]`, which has the most brackets in its text, and sums on their left.
const FORMS: [Form; 3] = [
    Form {
        core: ("2", NAME),
        rows: |row| format!("/13 2 0 {}", row),
        width: 1,
        around: |inner| format!("{{\"kind\":\"prefix\",\"mark\":2,\"place\":0,\"c0\":{}}}", inner),
    },
    Form {
        core: ("8", EMPTY),
        rows: |row| format!("/8 0 0 {}", row),
        width: 1,
        around: |inner| EMPTY.replace("[]", &format!("[{}]", inner)),
    },
    Form {
        core: ("1", NONE),
        rows: |row| format!("/1/12 0 0 {} {}", row, row + 1),
        width: 2,
        around: |inner| {
            let head = "{\"kind\":\"infix\",\"mark\":0,\"place\":0,\"c0\":";
            format!("{}{},\"c1\":{}}}", head, inner, NONE)
        },
    },
];

/// The examples that are too long for the table: nests of as many rows as may be and of one more, and a
/// list that is longer.
fn long() -> Vec<Example> {
    let mut examples = vec![];
    for form in FORMS {
        examples.push(form.nest(127, None));
        examples.push(form.nest(128, Some(Expected::Refused(34, 1))));
    }
    examples.push(wide(300));
    examples
}

impl Form {
    /// The form around itself so many times, and what is expected if it isn't its text.
    fn nest(&self, count: usize, expected: Option<Expected>) -> Example {
        let outer: String = (0..count).map(|form| (self.rows)(1 + form * self.width)).collect();
        let pool = pool_of(&(self.core.0.to_string() + &outer));
        let case = Case::roomy(pool, 1 + count * self.width, tagged(7, b"a"));
        let text = || (0..count).fold(self.core.1.to_string(), |inner, _| (self.around)(inner));
        Example { case, expected: expected.unwrap_or_else(|| Expected::Text(text())) }
    }
}

/// A list of so many members: a next word is no step.
fn wide(count: usize) -> Example {
    let member = |row: usize| format!("1 0 0 0 0 0 0 {}/", if row < count { row + 1 } else { 0 });
    let rows: String = (1..=count).map(member).collect();
    let case = Case::roomy(pool_of(&(rows + "8 0 0 1")), count + 1, vec![]);
    let text = EMPTY.replace("[]", &format!("[{}]", vec![NONE; count].join(",")));
    Example { case, expected: Expected::Text(text) }
}

/// What is wrong with the examples.
pub fn wrong() -> Vec<String> {
    let told =
        |example: Example| check(&example).err().map(|what| format!("{}: {}", example.case, what));
    all().into_iter().filter_map(told).collect()
}

/// Judges an example; or says what differs from what was expected.
fn check(example: &Example) -> Result<Judged, String> {
    let judged = judge(&example.case)?;
    let found = match &judged.text {
        Some(text) => Expected::Text(text.clone()),
        None => Expected::Refused(judged.number, judged.value),
    };
    if found != example.expected {
        return Err(format!("expected {:?}\n  model    {:?}", example.expected, found));
    }
    Ok(judged)
}

#[cfg(test)]
mod tests {
    use super::*;

    #[test]
    fn every_example_holds() {
        assert!(all().len() > 90, "{}", all().len());
        assert!(wrong().is_empty(), "{}", wrong().join("\n"));
    }

    #[test]
    fn a_wrong_expectation_is_noticed() {
        let is_right = |line: &str| check(&example(pool_of("7 1 99"), vec![], line)).is_ok();
        assert!(is_right("1: {\"kind\":\"bool\",\"mark\":1,\"place\":99}"));
        assert!(is_right("1: {\"kind\":\"b<6F>ol\",\"mark\":1,\"place\":99}"));
        assert!(!is_right("1: {\"kind\":\"bool\",\"mark\":1,\"place\":98}"));
        assert!(is_right("1/34: no 32 0") && is_right("2: no 38 0"));
        assert!(!is_right("1/35: no 32 0") && !is_right("1: no 38 1"));
    }
}
