//! The tree that a JSON text tells, read back from the text.
use super::payload::Value;
use super::read::{read, Json};
use super::told::{Part, Told};
use crate::kinds;

/// What a text tells; or why it is none of a tree.
pub fn told(text: &str) -> Result<Told, String> {
    tree(read(text)?)
}

fn tree(json: Json) -> Result<Told, String> {
    let Json::Object(members) = json else {
        return Err(format!("no object: {:?}", json));
    };
    let mut members = members.into_iter().peekable();
    let mut next = |name: &str| match members.next() {
        Some((found, value)) if found == name => Ok(value),
        other => Err(format!("no member {}, but {:?}", name, other)),
    };
    let kind = kind(next("kind")?)?;
    let (mark, place) = (word(next("mark")?)?, word(next("place")?)?);
    let mut payload = None;
    if let Some((_, value)) = members.next_if(|(name, _)| name == "payload") {
        payload = Some(self::value(kind, value)?);
    }
    let mut slots = vec![];
    for (index, (name, value)) in members.enumerate() {
        if name != format!("c{}", index) {
            return Err(format!("no member c{}, but {}", index, name));
        }
        slots.push(part(value)?);
    }
    Ok(Told { kind, mark, place, payload, slots })
}

/// The kind of a name.
fn kind(json: Json) -> Result<u32, String> {
    let is_named = |&kind: &u32| json == Json::Text(kinds::word(kind).into());
    kinds::ALL.iter().copied().find(is_named).ok_or_else(|| format!("no kind: {:?}", json))
}

/// A word of a row.
fn word(json: Json) -> Result<u32, String> {
    match json {
        Json::Number(number) => u32::try_from(number).map_err(|_| format!("no word: {}", number)),
        other => Err(format!("no word: {:?}", other)),
    }
}

/// A payload's value, of the form that a kind has.
fn value(kind: u32, json: Json) -> Result<Value, String> {
    match (kind, json) {
        (kinds::INT, Json::Number(number)) => Ok(Value::Int(number)),
        (kinds::FLOAT, Json::Text(digits)) => {
            let bits = u64::from_str_radix(&digits, 16).map_err(|what| what.to_string())?;
            let is_right = digits.len() == 16 && !digits.contains(|one: char| !is_digit(one));
            is_right.then_some(Value::Float(bits)).ok_or_else(|| format!("no digits: {}", digits))
        }
        (kinds::CHAR, Json::Text(text)) => {
            let mut all = text.chars();
            match (all.next(), all.next()) {
                (Some(one), None) => Ok(Value::Char(one)),
                _ => Err(format!("no character: {}", text)),
            }
        }
        (kinds::INT, other) => Err(format!("no number: {:?}", other)),
        (_, Json::Text(text)) => Ok(Value::Text(text)),
        (_, other) => Err(format!("no text: {:?}", other)),
    }
}

fn is_digit(one: char) -> bool {
    one.is_ascii_digit() || ('A'..='F').contains(&one)
}

fn part(json: Json) -> Result<Part, String> {
    match json {
        Json::Null => Ok(Part::One(None)),
        Json::List(trees) => {
            Ok(Part::List(trees.into_iter().map(tree).collect::<Result<_, String>>()?))
        }
        one => Ok(Part::One(Some(Box::new(tree(one)?)))),
    }
}

#[cfg(test)]
mod tests {
    use super::*;

    const VAR: &str = "{\"kind\":\"var\",\"mark\":0,\"place\":1,\"payload\":\"x\",\"c0\":null}";

    #[test]
    fn a_tree_is_read() {
        let payload = Some(Value::Text("x".into()));
        let slots = vec![Part::One(None)];
        assert_eq!(told(VAR), Ok(Told { kind: kinds::VAR, mark: 0, place: 1, payload, slots }));
    }

    #[test]
    fn members_are_as_they_must_be() {
        let changes = [
            ("\"mark\":0,\"place\":1", "\"place\":1,\"mark\":0"),
            ("\"mark\":0,", ""),
            ("\"kind\":\"var\",", ""),
            ("var", "Var"),
            ("null", "7"),
            ("c0", "c1"),
            ("\"x\"", "1"),
            ("\"mark\":0", "\"mark\":-1"),
            ("\"place\":1", "\"place\":4294967296"),
            ("\"payload\":\"x\",\"c0\":null", "\"c0\":null,\"payload\":\"x\""),
        ];
        for (old, new) in changes {
            assert!(VAR.contains(old));
            assert!(told(&VAR.replace(old, new)).is_err(), "{} for {}", new, old);
        }
    }

    #[test]
    fn payloads_are_of_the_kinds_form() {
        let of = |kind: &str, payload: &str| {
            told(&format!(
                "{{\"kind\":\"{}\",\"mark\":0,\"place\":0,\"payload\":{}}}",
                kind, payload
            ))
        };
        for (kind, payload) in [
            ("int", "\"1\""),
            ("float", "\"3ff8000000000000\""),
            ("float", "\"3FF800000000000\""),
            ("float", "\"+FF8000000000000\""),
            ("float", "1"),
            ("char", "\"\""),
            ("char", "\"ab\""),
            ("string", "null"),
        ] {
            assert!(of(kind, payload).is_err(), "{} {}", kind, payload);
        }
        let bits = Some(Value::Float(0x3FF8_0000_0000_00AB));
        assert_eq!(of("float", "\"3FF80000000000AB\"").unwrap().payload, bits);
        assert_eq!(of("char", "\"\u{1F600}\"").unwrap().payload, Some(Value::Char('\u{1F600}')));
    }
}
