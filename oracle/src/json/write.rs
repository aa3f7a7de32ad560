//! The JSON text of a tree: an object for each row, its members in the order of the row's words, no
//! blanks, and only those escapes that RFC 8259 demands.
use super::payload::Value;
use super::told::{Part, Told};
use crate::kinds::word;

pub fn text(tree: &Told) -> String {
    let mut text = String::new();
    object(&mut text, tree);
    text
}

fn object(to: &mut String, tree: &Told) {
    let (kind, mark, place) = (word(tree.kind), tree.mark, tree.place);
    to.push_str(&format!("{{\"kind\":\"{}\",\"mark\":{},\"place\":{}", kind, mark, place));
    if let Some(payload) = &tree.payload {
        to.push_str(",\"payload\":");
        value(to, payload);
    }
    for (index, slot) in tree.slots.iter().enumerate() {
        to.push_str(&format!(",\"c{}\":", index));
        part(to, slot);
    }
    to.push('}');
}

fn part(to: &mut String, part: &Part) {
    match part {
        Part::One(None) => to.push_str("null"),
        Part::One(Some(tree)) => object(to, tree),
        Part::List(trees) => {
            to.push('[');
            for (index, tree) in trees.iter().enumerate() {
                to.push_str(if index == 0 { "" } else { "," });
                object(to, tree);
            }
            to.push(']');
        }
    }
}

fn value(to: &mut String, value: &Value) {
    match value {
        Value::Int(number) => to.push_str(&number.to_string()),
        Value::Float(bits) => to.push_str(&format!("\"{:016X}\"", bits)),
        Value::Char(one) => quoted(to, &one.to_string()),
        Value::Text(text) => quoted(to, text),
    }
}

fn quoted(to: &mut String, text: &str) {
    to.push('"');
    for one in text.chars() {
        match one {
            '"' => to.push_str("\\\""),
            '\\' => to.push_str("\\\\"),
            '\u{8}' => to.push_str("\\b"),
            '\t' => to.push_str("\\t"),
            '\n' => to.push_str("\\n"),
            '\u{C}' => to.push_str("\\f"),
            '\r' => to.push_str("\\r"),
            control if control < ' ' => to.push_str(&format!("\\u{:04X}", u32::from(control))),
            other => to.push(other),
        }
    }
    to.push('"');
}
