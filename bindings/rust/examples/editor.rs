//! Reads a token file on standard input, changes the tree of its script, and prints the script anew:
//!
//! - the operands of the first infix row change places;
//! - behind the last statement comes another one, which returns the last name of the script.
//!
//! ```text
//! editor            reads in the old mode
//! editor --strict   reads in strict mode
//! ```
//!
//! The status is 0 where the script is accepted, 1 where it is refused, 2 where the command or its
//! input can't be read.
mod command;
use command::TOKENS;
use shigthapul::{check, whole_script};
use shigthapul::{Field, Kind, Mode, Refusal, Row, Token, TokenFile, ROW_WORDS, TOKEN_WORDS};
use std::process::ExitCode;

fn main() -> ExitCode {
    command::run("editor", |file, mode| edited(file, mode).map(|text| text + "\n"))
}

/// The text of a file's script after the changes.
fn edited(bytes: &[u8], mode: Mode) -> Result<String, Refusal> {
    let mut words = vec![0; TOKENS];
    let file = TokenFile::read(bytes, &mut words)?;
    let mut pool = vec![0; TOKEN_WORDS * file.words().len()];
    let tree = whole_script(file.words(), &mut pool, mode)?;
    let (root, rows) = (tree.root().map_or(0, |root| root.reference()), tree.len());
    pool.truncate(ROW_WORDS * rows);
    let mut script = Script { pool, root };
    script.swap_operands();
    script.add_return();
    let tokens = check(&script.pool, script.root)?.to_tokens()?;
    let fields: Vec<Field> = file.fields().collect();
    Ok(tokens.text(|_, place| spelled(fields[place])))
}

/// A script in a pool of just its rows, which can be changed.
struct Script {
    pool: Vec<u32>,
    root: u32,
}

impl Script {
    /// The references of all rows, with their rows.
    fn rows(&self) -> impl DoubleEndedIterator<Item = (u32, Row)> + '_ {
        let references = 1..=(self.pool.len() / ROW_WORDS) as u32;
        references.filter_map(|reference| Some((reference, Row::at(&self.pool, reference)?)))
    }

    /// Adds a row behind all others, and gives its reference.
    fn append(&mut self, row: Row) -> u32 {
        self.pool.extend(row.words());
        (self.pool.len() / ROW_WORDS) as u32
    }

    /// Has the operands of the first infix row change places. Both are earlier rows, so they still are.
    fn swap_operands(&mut self) {
        let first = self.rows().find(|(_, row)| row.kind == Kind::Infix);
        if let Some((reference, mut row)) = first {
            row.children.swap(0, 1);
            row.put(&mut self.pool, reference);
        }
    }

    /// Adds a statement that returns the last name, whose place tells it.
    fn add_return(&mut self) {
        let last = self.rows().rev().find(|(_, row)| row.kind == Kind::Identifier);
        let name = last.map_or(0, |(_, row)| self.append(Row::new(Kind::Identifier, row.place)));
        let row = Row { children: [name, 0, 0, 0], ..Row::new(Kind::Return, 0) };
        let statement = self.append(row);
        self.add_statement(statement);
    }

    /// Adds a statement to the script's block. A list may go on with any later row, but a row's own
    /// children come before it: so a block that was empty is made anew.
    fn add_statement(&mut self, statement: u32) {
        let mut block = Row::at(&self.pool, self.root).expect("a script has a block");
        if block.children[0] == 0 {
            block.children[0] = statement;
            self.root = self.append(block);
            return;
        }
        let mut last = block.children[0];
        let mut row = Row::at(&self.pool, last).expect("a list has rows");
        while row.next != 0 {
            last = row.next;
            row = Row::at(&self.pool, last).expect("a list has rows");
        }
        row.next = statement;
        row.put(&mut self.pool, last);
    }
}

/// The text of a field, in the form of `tools/tokens`.
fn spelled(field: Field) -> String {
    let bytes = field.payload().iter();
    let number = bytes.fold(0_u64, |number, &byte| number << 8 | u64::from(byte));
    match (field.token(), field.text(), field.character()) {
        (Some(Token::Str), Some(text), _) => format!("\"{}\"", escaped(text, "\\\"")),
        (_, Some(text), _) => escaped(text, "\\"),
        (_, _, Some(character)) => format!("'\\u{{{:X}}}'", u32::from(character)),
        (Some(Token::Float), ..) => float(f64::from_bits(number)),
        _ => (number as i64).to_string(),
    }
}

/// A float by the fewest digits that are read as the same again, with a point.
fn float(value: f64) -> String {
    let text = format!("{:?}", value);
    match text.split_once('e') {
        Some((digits, exponent)) if !digits.contains('.') => format!("{}.0e{}", digits, exponent),
        _ => text,
    }
}

/// A text with the bytes that are no plain letters or signs escaped, and some signs too.
fn escaped(text: &str, signs: &str) -> String {
    let escape = |byte: u8| match byte as char {
        sign if signs.contains(sign) => format!("\\{}", sign),
        plain @ ' '..='~' => plain.to_string(),
        _ => format!("\\x{:02X}", byte),
    };
    text.bytes().map(escape).collect()
}
