//! The numbers, names and texts here are those of the C header and of the Rattle source.
mod common;
use common::{repository, text_of};
use shigthapul::{Infix, Keyword, Kind, Prefix, Reason, Suffix, Symbol, Token};
use shigthapul::{MOST_ROWS, PAYLOAD_BYTES, ROW_BYTES, ROW_TOKENS, ROW_WORDS, SMALL_ROWS};
use std::fs;

/// A member of a table: its name in small letters without `_`, its number, its text.
type Member = (String, u32, String);

/// The members of a table of this crate.
macro_rules! members {
    ($table:ident) => {
        $table::ALL
            .iter()
            .map(|m| (plain(&format!("{:?}", m)), u32::from(m.number()), m.text().to_string()))
            .collect::<Vec<Member>>()
    };
}

/// A name in small letters without `_`.
fn plain(name: &str) -> String {
    name.replace('_', "").to_lowercase()
}

/// The members of a table of the C header, whose names have a prefix.
fn of_header(table: &str, prefix: &str) -> Vec<Member> {
    let header = text_of("bindings/c/shigthapul_numbers.h");
    let start = format!("#define SHIGTHAPUL_{}(X) \\\n", table);
    let (_, behind) = header.split_once(&start).unwrap_or_else(|| panic!("no table {}", table));
    let lines = behind.lines().map(str::trim).take_while(|line| line.starts_with("X("));
    lines.map(|line| member(line, prefix)).collect()
}

/// The member of a line `X(SHIGTHAPUL_NAME, 1, "text")`.
fn member(line: &str, prefix: &str) -> Member {
    let mut parts = line["X(".len()..].splitn(3, ", ");
    let mut part = || parts.next().expect("a name, a number and a text");
    let name = part().strip_prefix("SHIGTHAPUL_").and_then(|name| name.strip_prefix(prefix));
    let name = name.unwrap_or_else(|| panic!("no name with {} in {}", prefix, line));
    let number = part().parse().expect("a number");
    let text = part().split('"').nth(1).expect("a text");
    (plain(name), number, text.to_string())
}

#[test]
fn the_c_header_has_the_same_tables() {
    assert_eq!(of_header("REFUSALS", "REFUSED_"), members!(Reason));
    assert_eq!(of_header("KINDS", "KIND_"), members!(Kind));
    assert_eq!(of_header("INFIXES", "INFIX_"), members!(Infix));
    assert_eq!(of_header("PREFIXES", "PREFIX_"), members!(Prefix));
    assert_eq!(of_header("SUFFIXES", "SUFFIX_"), members!(Suffix));
    assert_eq!(of_header("SYMBOLS", ""), members!(Symbol));
    assert_eq!(of_header("KEYWORDS", ""), members!(Keyword));
}

#[test]
fn the_c_header_has_the_same_classes() {
    let classes = of_header("CLASSES", "CLASS_");
    assert_eq!(classes.len(), 11);
    for (name, class, _) in classes {
        let token = Token::from_word((class << 8) as u16).expect("a class");
        let shown = format!("{:?}", token);
        assert_eq!(shown.split('(').next().map(plain), Some(name));
    }
}

/// The text of every file of Rattle code.
fn rattle_source() -> String {
    let folders = fs::read_dir(repository("crates")).unwrap();
    let sources =
        folders.filter_map(|folder| fs::read_dir(folder.unwrap().path().join("src")).ok());
    let files = sources.flatten().map(|file| file.unwrap().path());
    files.filter_map(|file| fs::read_to_string(file).ok()).collect()
}

#[test]
fn the_rattle_source_has_the_same_numbers() {
    let source = rattle_source();
    let reasons = variants(&source, "Reason");
    for (name, number, _) in members!(Reason) {
        // Two refusals have other names there.
        let name = match name.as_str() {
            "deeptree" => "treetoodeep",
            "norow" => "noroom",
            name => name,
        };
        assert!(reasons.contains(&(name.to_string(), number)), "{} {}", name, number);
    }
    let kinds = variants(&source, "Kind");
    for (name, number, _) in members!(Kind) {
        assert!(kinds.contains(&(name.clone(), number)), "{} {}", name, number);
    }
}

/// The variants of an enum of the Rattle source, with their numbers: of that enum alone, as a name may stand in another too.
fn variants(source: &str, of: &str) -> Vec<(String, u32)> {
    let start = format!("enum {} {{\n", of);
    let (_, behind) = source.split_once(&start).unwrap_or_else(|| panic!("no enum {}", of));
    behind.lines().take_while(|line| *line != "}").filter_map(variant).collect()
}

/// The name and number of a line `    Name = 1,`.
fn variant(line: &str) -> Option<(String, u32)> {
    let (name, number) = line.trim().split_once(" = ")?;
    Some((plain(name), number.strip_suffix(',')?.parse().ok()?))
}

#[test]
fn the_rattle_source_has_the_same_codes() {
    let source = text_of("crates/tokens/specs/Symbols.antt");
    for (kind, members) in [("symbol_code", members!(Symbol)), ("keyword_code", members!(Keyword))]
    {
        let codes = source.lines().filter_map(|line| code(line, kind)).collect::<Vec<_>>();
        let expected: Vec<_> = members.into_iter().map(|(name, code, _)| (name, code)).collect();
        assert_eq!(codes, expected);
    }
}

/// The name and code of a line `symbol_code SPlus = 1`.
fn code(line: &str, kind: &str) -> Option<(String, u32)> {
    let (name, code) = line.strip_prefix(kind)?.trim().split_once(" = ")?;
    Some((plain(name), code.parse().ok()?))
}

/// The number behind a name and ` = ` in a file.
fn size(path: &str, name: &str) -> usize {
    let text = text_of(path);
    let behind = text.split_once(&format!("{} = ", name)).map(|(_, behind)| behind);
    let digits = behind.and_then(|text| text.split(|c: char| !c.is_ascii_digit()).next());
    digits.and_then(|digits| digits.parse().ok()).unwrap_or_else(|| panic!("no {}", name))
}

#[test]
fn the_c_header_and_the_rattle_source_have_the_same_sizes() {
    assert_eq!(size("bindings/c/shigthapul.h", "SHIGTHAPUL_ROW_WORDS"), ROW_WORDS);
    assert_eq!(size("bindings/c/shigthapul.h", "SHIGTHAPUL_MOST_ROWS"), MOST_ROWS);
    assert_eq!(size("bindings/c/shigthapul.h", "SHIGTHAPUL_SMALL_ROWS"), SMALL_ROWS);
    assert_eq!(size("bindings/c/shigthapul.h", "SHIGTHAPUL_ROW_TOKENS"), ROW_TOKENS);
    assert_eq!(size("bindings/c/shigthapul.h", "SHIGTHAPUL_ROW_BYTES"), ROW_BYTES);
    assert_eq!(size("bindings/c/shigthapul.h", "SHIGTHAPUL_PAYLOAD_BYTES"), PAYLOAD_BYTES);
    assert_eq!(size("crates/rows/src/lib.rt", "const WIDTH: usize"), ROW_WORDS);
    assert_eq!(size("crates/rows/src/lib.rt", "const MOST: usize"), MOST_ROWS);
}

#[test]
fn every_word_and_its_token() {
    let tokens: Vec<Token> = (0..=u16::MAX).filter_map(Token::from_word).collect();
    assert_eq!(tokens.len(), 9 + 41 + 28);
    for word in 0..=u16::MAX {
        assert!(Token::from_word(word).map_or(true, |token| token.word() == word));
    }
    assert_eq!(u16::from(Token::from(Symbol::SPlus)), 0x0801);
}

#[test]
fn numbers_and_members() {
    for kind in Kind::ALL {
        assert_eq!(Kind::from_number(kind.number()), Some(*kind));
    }
    assert_eq!([0, 20, 31, 47].map(Kind::from_number), [None; 4]);
    assert_eq!([0, 7, 9, 31, 35, 37, 39].map(Reason::from_number), [None; 7]);
    assert_eq!(format!("{:>7}", Kind::Name), "   name");
}
