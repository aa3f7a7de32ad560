//! JSON texts of trees that were read, beside those of a plain writer in Rust: of the samples, of the worked examples with
//! payloads by chance, and of a tree of each kind.
mod common;
use common::pools::{pool_of, trees};
use common::{enough, field, read, repository, text_of, words};
use shigthapul::{check, whole_script, Field, Kind, Mode, Node, Row, Token, TokenFile};
use shigthapul::{GROUPED, PAYLOAD_BYTES, ROW_BYTES, ROW_WORDS, TOKEN_WORDS};
use std::fs;

// Shared with the bench.
#[path = "../../../bench/src/chance.rs"]
mod chance;
#[path = "../../../bench/src/characters.rs"]
mod characters;

use chance::Chance;
use characters::character;

/// The children of a kind, slot by slot: `1` for one, `?` for one or none, `*` for a list.
fn slots(kind: Kind) -> &'static str {
    match kind {
        Kind::Array | Kind::Hash | Kind::Block => "*",
        Kind::Index | Kind::Infix | Kind::Pair | Kind::While | Kind::Assert => "11",
        Kind::Call | Kind::Attribute => "1*",
        Kind::Lambda | Kind::Function => "*1",
        Kind::Prefix | Kind::Suffix | Kind::Shell | Kind::Const | Kind::Throw => "1",
        Kind::Expression => "1",
        Kind::Var | Kind::Return => "?",
        Kind::For => "111",
        Kind::If => "11?",
        Kind::Try => "111?",
        Kind::ForEach => "1111",
        _ => "",
    }
}

/// A string of JSON.
fn quoted(text: &str) -> String {
    let escaped = |c: char| match c {
        '"' | '\\' => format!("\\{}", c),
        '\u{8}' => "\\b".into(),
        '\t' => "\\t".into(),
        '\n' => "\\n".into(),
        '\u{C}' => "\\f".into(),
        '\r' => "\\r".into(),
        '\0'..='\u{1F}' => format!("\\u{:04X}", u32::from(c)),
        _ => c.to_string(),
    };
    format!("\"{}\"", text.chars().map(escaped).collect::<String>())
}

/// The class that a kind's payload needs.
fn class(kind: Kind) -> Option<Token> {
    match kind {
        Kind::Identifier | Kind::Name | Kind::Var | Kind::Const | Kind::Function => {
            Some(Token::Identifier)
        }
        Kind::Int => Some(Token::Integer),
        Kind::Float => Some(Token::Float),
        Kind::Char => Some(Token::Char),
        Kind::String => Some(Token::Str),
        _ => None,
    }
}

/// The value of a field of the class that a kind needs.
fn value(kind: Kind, field: Field) -> String {
    assert_eq!(field.token(), class(kind));
    let bits = || u64::from_be_bytes(field.payload().try_into().expect("eight bytes"));
    match (kind, field.text(), field.character()) {
        (Kind::String, Some(text), _) => quoted(&text.replace(r"\\", r"\")),
        (_, Some(text), _) => quoted(text),
        (_, _, Some(character)) => quoted(&character.to_string()),
        (Kind::Float, ..) => format!("\"{:016X}\"", bits()),
        _ => (bits() as i64).to_string(),
    }
}

/// The text of a node.
fn told(node: Node, fields: &[Field]) -> String {
    let (kind, mark, place) = (node.kind(), node.row().mark, node.place());
    let mut text = format!(r#"{{"kind":"{}","mark":{},"place":{}"#, kind, mark, place);
    if class(kind).is_some() {
        text += &format!(r#","payload":{}"#, value(kind, fields[place]));
    }
    for (slot, many) in slots(kind).chars().enumerate() {
        let members: Vec<String> = node.list(slot).map(|member| told(member, fields)).collect();
        let inside = match many {
            '*' => format!("[{}]", members.join(",")),
            _ => members.into_iter().next().unwrap_or_else(|| "null".into()),
        };
        text += &format!(r#","c{}":{}"#, slot, inside);
    }
    text + "}"
}

#[test]
fn the_samples() {
    let mut scripts = 0;
    for entry in fs::read_dir(repository("samples")).unwrap() {
        let path = entry.unwrap().path();
        if path.extension().map_or(true, |end| end != "tok") {
            continue;
        }
        let bytes = fs::read(&path).unwrap();
        let mut buffer = vec![0; 20_000];
        let file = match TokenFile::read(&bytes, &mut buffer) {
            Ok(file) => file,
            Err(_) => continue,
        };
        let fields: Vec<Field> = file.fields().collect();
        let mut pool = vec![0; TOKEN_WORDS * file.words().len()];
        if let Ok(tree) = whole_script(file.words(), &mut pool, Mode::Old) {
            let text = told(tree.root().unwrap(), &fields);
            assert_eq!(tree.to_json(&bytes), Ok(text), "{}", path.display());
            scripts += 1;
        }
    }
    assert!(scripts >= 5, "{} scripts", scripts);
}

/// A text of some characters: any of up to four bytes, control characters, quotes, and backslashes alone and in runs.
fn text(chance: &mut Chance) -> String {
    let length = chance.below(9);
    let any = |chance: &mut Chance| match chance.below(4) {
        0 => char::from(chance.below(32) as u8).to_string(),
        1 => ['"', '/', '\u{7F}', '\u{2028}'][chance.below(4)].to_string(),
        2 => "\\".repeat(1 + chance.below(4)),
        _ => {
            let width = 1 + chance.below(4);
            character(chance, width).to_string()
        }
    };
    (0..length).map(|_| any(chance)).collect()
}

/// A payload of a token by chance.
fn payload(token: Token, chance: &mut Chance) -> Vec<u8> {
    let mut bits = || {
        let bits = (0..4).fold(0, |bits, _| bits << 16 | chance.below(65_536) as u64);
        (bits >> chance.below(64)).wrapping_mul([1, u64::MAX][chance.below(2)])
    };
    match token {
        Token::Integer | Token::Float => bits().to_be_bytes().to_vec(),
        Token::Char => {
            let text = text(chance) + "\n";
            u32::from(text.chars().next().unwrap()).to_be_bytes().to_vec()
        }
        Token::Str | Token::Identifier | Token::Unknown => text(chance).into_bytes(),
        Token::Operator(_) | Token::Keyword(_) => vec![(token.word() & 0xFF) as u8],
        _ => vec![],
    }
}

/// A file with the tokens of words, and payloads by chance; none where a word is no token's.
fn file_of(words: &[u16], chance: &mut Chance) -> Option<Vec<u8>> {
    let tokens: Option<Vec<Token>> = words.iter().map(|&word| Token::from_word(word)).collect();
    let fields = tokens?.into_iter().map(|token| field(token, &payload(token, chance)));
    Some(fields.collect::<Vec<_>>().concat())
}

/// Compares the text of the tree that a file is read as by an entry; whether there is one.
fn compare(entry: &str, bytes: &[u8]) -> bool {
    let mut buffer = vec![0; 20_000];
    let file = TokenFile::read(bytes, &mut buffer).unwrap();
    let fields: Vec<Field> = file.fields().collect();
    let mut pool = vec![0; ROW_WORDS * enough(file.words())];
    let tree = match read(entry, file.words(), &mut pool, Mode::Old) {
        Ok(tree) if !tree.is_empty() => tree,
        _ => return false,
    };
    let text = told(tree.root().unwrap(), &fields);
    assert!(text.len() <= ROW_BYTES * tree.len() + PAYLOAD_BYTES * bytes.len());
    assert_eq!(tree.to_json(bytes), Ok(text));
    true
}

#[test]
fn the_worked_examples_with_payloads_by_chance() {
    let is_text = |line: &&str| !line.starts_with('#') && !line.trim().is_empty();
    let table = text_of("oracle/examples.txt");
    let lines: Vec<&str> = table.lines().filter(is_text).collect();
    let (mut trees, chance) = (0, &mut Chance::new(6));
    for example in lines.chunks(2) {
        let (entry, script) = example[0].split_once(' ').unwrap_or((example[0], ""));
        for _ in 0..8 {
            let file = file_of(&words(script), chance);
            trees += usize::from(file.map_or(false, |file| compare(&entry[..1], &file)));
        }
    }
    assert!(trees >= 480, "{} trees", trees);
}

/// The number of the field that all payloads are in; no field's number has more digits.
const PLACE: u32 = 10_000;

/// A file whose field with that number is of a class, and empty where it may be.
fn file_with(token: Token) -> Vec<u8> {
    let length = match token {
        Token::Integer | Token::Float => 8,
        Token::Char => 4,
        _ => 0,
    };
    [[1, 0, 0].repeat(PLACE as usize), field(token, &vec![0; length])].concat()
}

/// A tree's rows with the longest marks and places, and without one of the root's children.
fn lengthened(rows: &[Row], without: usize) -> Vec<Row> {
    let (root, below) = rows.split_last().expect("a root");
    let lengthen = |row: &Row| {
        let place = if class(row.kind).is_some() { PLACE } else { u32::MAX };
        let is_plain = root.kind == Kind::Attribute && row.kind == Kind::Identifier;
        let mark = if row.kind < Kind::Name && !is_plain { GROUPED } else { 0 };
        Row { mark, place, ..*row }
    };
    let mut root = lengthen(root);
    if let Some(child) = root.children.get_mut(without) {
        *child = 0;
    }
    below.iter().map(lengthen).chain([root]).collect()
}

/// The bytes of a root's object, with a comma behind it and without its payload and its children.
fn own_bytes(root: Node, fields: &[Field]) -> usize {
    let children: usize = root.children().map(|child| told(child, fields).len()).sum();
    let commas = (0..4).map(|slot| root.list(slot).count().saturating_sub(1)).sum::<usize>();
    let payload = class(root.kind()).map_or(0, |_| value(root.kind(), fields[root.place()]).len());
    told(root, fields).len() + 1 - children - commas - payload
}

#[test]
fn no_row_takes_more_bytes_than_71() {
    let (mut most, mut kinds) = (0, 0);
    for rows in trees() {
        let kind = rows[rows.len() - 1].kind;
        let bytes = file_with(class(kind).unwrap_or(Token::Identifier));
        let mut buffer = vec![0; 20_000];
        let fields: Vec<Field> = TokenFile::read(&bytes, &mut buffer).unwrap().fields().collect();
        for without in 0..=4 {
            let pool = pool_of(&lengthened(&rows, without));
            if let Ok(tree) = check(&pool, rows.len() as u32) {
                assert_eq!(tree.to_json(&bytes), Ok(told(tree.root(), &fields)), "{}", kind);
                most = most.max(own_bytes(tree.root(), &fields));
                kinds += usize::from(without == 4);
            }
        }
    }
    // All but the names behind a dot and the pairs, which are no roots and are shorter than others.
    assert_eq!((most, kinds), (ROW_BYTES, Kind::ALL.len() - 2));
}
