//! Reads JSON texts of the one form that may be written: no blanks, whole numbers without leading
//! zeros, and no escape but those that RFC 8259 demands, the shortest of each.

#[derive(Clone, Debug, PartialEq)]
pub enum Json {
    Null,
    Number(i64),
    Text(String),
    List(Vec<Json>),
    /// The members in their order.
    Object(Vec<(String, Json)>),
}

/// The value that a whole text is; or what is wrong with the text.
pub fn read(text: &str) -> Result<Json, String> {
    let mut reader = Reader { rest: text };
    let value = reader.value();
    let at = text.len() - reader.rest.len();
    match value {
        Ok(value) if reader.rest.is_empty() => Ok(value),
        Ok(_) => Err(format!("something stands behind the value, at byte {}", at)),
        Err(what) => Err(format!("{} is expected at byte {}", what, at)),
    }
}

struct Reader<'a> {
    rest: &'a str,
}

/// What is read; or what is expected.
type Read<T> = Result<T, &'static str>;

/// The escapes of one letter.
const SHORT: [(char, char); 7] = [
    ('"', '"'),
    ('\\', '\\'),
    ('b', '\u{8}'),
    ('t', '\t'),
    ('n', '\n'),
    ('f', '\u{C}'),
    ('r', '\r'),
];

impl Reader<'_> {
    fn value(&mut self) -> Read<Json> {
        match self.rest.chars().next() {
            Some('{') => Ok(Json::Object(self.list('{', '}', Reader::member)?)),
            Some('[') => Ok(Json::List(self.list('[', ']', Reader::value)?)),
            Some('"') => Ok(Json::Text(self.text()?)),
            Some('n') => {
                self.rest = self.rest.strip_prefix("null").ok_or("null")?;
                Ok(Json::Null)
            }
            _ => Ok(Json::Number(self.number()?)),
        }
    }

    /// Takes a sign if it stands next.
    fn takes(&mut self, sign: char) -> bool {
        let behind = self.rest.strip_prefix(sign);
        self.rest = behind.unwrap_or(self.rest);
        behind.is_some()
    }

    /// Items with commas between.
    fn list<T>(
        &mut self,
        open: char,
        close: char,
        item: impl Fn(&mut Self) -> Read<T>,
    ) -> Read<Vec<T>> {
        let mut items = vec![];
        if !self.takes(open) {
            return Err("an opener");
        }
        if self.takes(close) {
            return Ok(items);
        }
        loop {
            items.push(item(self)?);
            if self.takes(close) {
                return Ok(items);
            }
            if !self.takes(',') {
                return Err("a comma or a closer");
            }
        }
    }

    fn member(&mut self) -> Read<(String, Json)> {
        let name = self.text()?;
        if !self.takes(':') {
            return Err("a colon");
        }
        Ok((name, self.value()?))
    }

    fn number(&mut self) -> Read<i64> {
        let is_digit = |one: char| one.is_ascii_digit();
        let digits = self.rest.strip_prefix('-').unwrap_or(self.rest);
        let count = digits.find(|one| !is_digit(one)).unwrap_or(digits.len());
        let (number, rest) = self.rest.split_at(self.rest.len() - digits.len() + count);
        let value: i64 = number.parse().map_err(|_| "a whole number")?;
        // There is one way to write each.
        if value.to_string() != number {
            return Err("a number without leading zeros");
        }
        self.rest = rest;
        Ok(value)
    }

    fn text(&mut self) -> Read<String> {
        if !self.takes('"') {
            return Err("a string");
        }
        let mut text = String::new();
        while !self.takes('"') {
            let one = self.rest.chars().next().ok_or("a quote")?;
            self.rest = &self.rest[one.len_utf8()..];
            match one {
                '\\' => text.push(self.escape()?),
                control if control < ' ' => return Err("an escape"),
                other => text.push(other),
            }
        }
        Ok(text)
    }

    /// What an escape stands for, its backslash read.
    fn escape(&mut self) -> Read<char> {
        for (letter, one) in SHORT {
            if self.takes(letter) {
                return Ok(one);
            }
        }
        let digits = self.rest.strip_prefix("u00").and_then(|rest| rest.get(..2));
        let is_long = |one: &char| !SHORT.iter().any(|(_, short)| short == one);
        let mut controls = ('\0'..' ').filter(is_long);
        let one = controls.find(|&one| digits == Some(&format!("{:02X}", u32::from(one))));
        let one = one.ok_or("an escape that is needed")?;
        self.rest = &self.rest["u0000".len()..];
        Ok(one)
    }
}

#[cfg(test)]
mod tests {
    use super::*;

    #[test]
    fn values_of_every_form() {
        let escapes = "\\\"\\\\\\b\\t\\n\\f\\r\\u0000\\u001F/\u{7F}\u{2028}";
        let text = format!("{{\"a\":[null,-7,0],\"b\":{{}},\"c\":[],\"d\":\"{}\"}}", escapes);
        let list = Json::List(vec![Json::Null, Json::Number(-7), Json::Number(0)]);
        let string = Json::Text("\"\\\u{8}\t\n\u{C}\r\0\u{1F}/\u{7F}\u{2028}".into());
        let empty = (Json::Object(vec![]), Json::List(vec![]));
        let members = [("a", list), ("b", empty.0), ("c", empty.1), ("d", string)];
        let members = members.map(|(name, value)| (name.to_string(), value)).to_vec();
        assert_eq!(read(&text), Ok(Json::Object(members)));
        assert_eq!(read("-9223372036854775808"), Ok(Json::Number(i64::MIN)));
    }

    /// Texts that are wrong, one to a line.
    const WRONG: &str = r#"
[1, 2]
{"a" :1}
{"a": 1}
[1,]
{"a":1,}
[,1]
01
-0
+1
1.0
1e3
-
9223372036854775808
true
nul
[
[1
{
{1:2}
"
"\"
"\/"
"\u0041"
"\u000A"
"\u001f"
"\u00"
"\u0022"
"\u007F"
"\u2028"
"\x"
1 2"#;

    #[test]
    fn no_other_form_is_taken() {
        let more = [" 1", "1 ", "1\n", "\"\n\"", "\"\u{1}\"", "\u{FEFF}1"];
        for text in WRONG.split('\n').chain(more) {
            assert!(read(text).is_err(), "{}", text);
        }
        assert!(read("\"\\\\\"").is_ok() && read("[1,2]").is_ok());
    }
}
