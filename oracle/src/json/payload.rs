//! The payloads of rows: which field a kind needs, and the value in it.
use crate::files::{number, Field};
use crate::kinds;
use crate::words::{self, class};

/// The value of a payload, a string's after folding.
#[derive(Clone, Debug, PartialEq)]
pub enum Value {
    Int(i64),
    Float(u64),
    Char(char),
    Text(String),
}

/// The class of the field that a kind's payload is in; None if the kind has none.
pub fn class_of(kind: u32) -> Option<u16> {
    match kind {
        kinds::IDENTIFIER | kinds::NAME | kinds::VAR | kinds::CONST | kinds::FUNCTION => {
            Some(class(words::IDENTIFIER))
        }
        kinds::INT => Some(class(words::INTEGER)),
        kinds::FLOAT => Some(class(words::FLOAT)),
        kinds::CHAR => Some(class(words::CHAR)),
        kinds::STRING => Some(class(words::STR)),
        _ => None,
    }
}

/// The classes that a payload can be in.
pub fn classes() -> Vec<u16> {
    let mut all: Vec<u16> = kinds::ALL.iter().filter_map(|&kind| class_of(kind)).collect();
    all.sort_unstable();
    all.dedup();
    all
}

/// The value for a row of a kind, in a field of the class that it needs.
pub fn value(kind: u32, field: Field) -> Value {
    let eight = || field.payload.try_into().expect("eight bytes");
    let text = || std::str::from_utf8(field.payload).expect("the file reader takes only texts");
    match kind {
        kinds::INT => Value::Int(i64::from_be_bytes(eight())),
        kinds::FLOAT => Value::Float(u64::from_be_bytes(eight())),
        kinds::CHAR => {
            let one = char::from_u32(number(field.payload));
            Value::Char(one.expect("the file reader takes only characters"))
        }
        kinds::STRING => Value::Text(folded(text())),
        _ => Value::Text(text().to_string()),
    }
}

/// A string's text: each pair of backslashes, left to right without overlap, is one.
fn folded(text: &str) -> String {
    text.replace("\\\\", "\\")
}

#[cfg(test)]
mod tests {
    use super::*;
    use crate::gen::rng::Rng;

    #[test]
    fn nine_kinds_have_payloads() {
        let with = kinds::ALL.iter().filter(|&&kind| class_of(kind).is_some());
        assert_eq!(with.copied().collect::<Vec<_>>(), [2, 3, 4, 5, 6, 18, 34, 35, 40]);
        assert_eq!(classes(), [3, 4, 5, 6, 7]);
    }

    #[test]
    fn pairs_are_folded_from_the_left() {
        for (count, left) in [(0, 0), (1, 1), (2, 1), (3, 2), (4, 2), (5, 3)] {
            assert_eq!(folded(&"\\".repeat(count)), "\\".repeat(left));
        }
        assert_eq!(folded("a\\b\\\\c\\\\\\d"), "a\\b\\c\\\\d");
    }

    #[test]
    fn folding_halves_each_run_of_backslashes() {
        let mut rng = Rng::new(5);
        for _ in 0..1000 {
            let text: String = (0..rng.below(20)).map(|_| rng.pick(&['\\', '\\', 'a'])).collect();
            let runs = text.split('a').map(|run| "\\".repeat(run.len().div_ceil(2)));
            assert_eq!(folded(&text), runs.collect::<Vec<_>>().join("a"));
        }
    }

    #[test]
    fn only_strings_are_folded() {
        let field = Field { class: 7, payload: b"a\\\\b" };
        assert_eq!(value(kinds::IDENTIFIER, field), Value::Text("a\\\\b".into()));
        assert_eq!(value(kinds::STRING, field), Value::Text("a\\b".into()));
    }
}
