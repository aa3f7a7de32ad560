//! Helpers of the tests: token words from text, fields of token files, and answers as text.
#![allow(dead_code)] // each test file uses some of them
pub mod pools;
use shigthapul::{one_expression, one_statement, whole_script};
use shigthapul::{Keyword, Mode, Node, Refusal, Symbol, Token, Tree, ROW_WORDS};
use std::fs;
use std::path::PathBuf;

/// What is in a pool before it is lent.
pub const DIRT: u32 = 0xDEAD_BEEF;

/// A file or folder of the repository.
pub fn repository(path: &str) -> PathBuf {
    PathBuf::from(concat!(env!("CARGO_MANIFEST_DIR"), "/../..")).join(path)
}

/// The text of a file of the repository.
pub fn text_of(path: &str) -> String {
    fs::read_to_string(repository(path)).unwrap_or_else(|error| panic!("{}: {}", path, error))
}

/// The words of a text in the form of `tools/tokens`, with blanks between the items.
pub fn words(text: &str) -> Vec<u16> {
    let end = if text.ends_with("_NOEOF") { "" } else { "_EOF" };
    let items = text.split_whitespace().filter(|&item| item != "_NOEOF");
    items.chain(end.split_whitespace()).map(word).collect()
}

/// A field of a token file: the token of a class, and its payload.
pub fn field(token: Token, payload: &[u8]) -> Vec<u8> {
    let length = u16::try_from(payload.len()).expect("a length in two bytes").to_be_bytes();
    [&[(token.word() >> 8) as u8], &length[..], payload].concat()
}

/// The word of one item.
fn word(item: &str) -> u16 {
    if let Some(hex) = item.strip_prefix('#') {
        return u16::from_str_radix(hex, 16).expect("a word in hexadecimal");
    }
    let symbol = Symbol::ALL.iter().find(|symbol| symbol.text() == item);
    let keyword = Keyword::ALL.iter().find(|keyword| keyword.text() == item);
    match (symbol, keyword) {
        (Some(&symbol), _) => Token::Operator(symbol).word(),
        (_, Some(&keyword)) => Token::Keyword(keyword).word(),
        _ => plain(item).word(),
    }
}

/// The token of an item that is neither an operator nor a keyword.
fn plain(item: &str) -> Token {
    match item {
        "_E" => Token::Empty,
        "_I" => Token::Invalid,
        "_U" => Token::Unknown,
        "_EOF" => Token::EOF,
        _ if item.starts_with('"') => Token::Str,
        _ if item.starts_with('\'') => Token::Char,
        _ if item.starts_with(|first: char| first.is_ascii_digit()) => {
            if item.contains('.') {
                Token::Float
            } else {
                Token::Integer
            }
        }
        _ => Token::Identifier,
    }
}

/// Reads tokens in a mode, by an entry's letter: X one expression, S one statement, W a whole script.
pub fn read<'a>(
    entry: &str,
    tokens: &[u16],
    pool: &'a mut [u32],
    mode: Mode,
) -> Result<Tree<'a>, Refusal> {
    match entry {
        "X" => one_expression(tokens, pool, 0, mode),
        "S" => one_statement(tokens, pool, 0, mode),
        "W" => whole_script(tokens, pool, mode),
        _ => panic!("no entry {}", entry),
    }
}

/// Reads tokens into a dirty pool with so many rows and three words more, and gives the answer and
/// the words of the tree. Every word that is no row of the tree must have become zero.
pub fn answer(entry: &str, tokens: &[u16], rows: usize, mode: Mode) -> String {
    let mut pool = vec![DIRT; ROW_WORDS * rows + 3];
    let (used, text) = match read(entry, tokens, &mut pool, mode) {
        Err(refusal) => (0, format!("no {} {}", refusal.number(), refusal.place)),
        Ok(tree) => (tree.len(), format!("ok {} {}", tree.last_place(), line(tree.root()))),
    };
    assert!(pool[ROW_WORDS * used..].iter().all(|&word| word == 0), "a word is left in the pool");
    text
}

/// Rows that are enough for any tree of so many tokens.
pub fn enough(tokens: &[u16]) -> usize {
    2 * tokens.len() + 2
}

/// A tree on one line as in `oracle/examples.txt`: `kind/mark@place(child, child)`.
pub fn line(node: Option<Node>) -> String {
    let node = match node {
        None => return "-".into(),
        Some(node) => node,
    };
    let row = node.row();
    let mark = if row.mark == 0 { String::new() } else { format!("/{}", row.mark) };
    let filled = row.children.iter().rposition(|&child| child != 0).map_or(0, |last| last + 1);
    let slots: Vec<String> = (0..filled).map(|slot| list(node, slot)).collect();
    let inside = if filled == 0 { String::new() } else { format!("({})", slots.join(", ")) };
    format!("{}{}@{}{}", row.kind, mark, row.place, inside)
}

/// The members of a slot with blanks between, `-` for none.
fn list(node: Node, slot: usize) -> String {
    let members: Vec<String> = node.list(slot).map(|member| line(Some(member))).collect();
    if members.is_empty() {
        "-".into()
    } else {
        members.join(" ")
    }
}
