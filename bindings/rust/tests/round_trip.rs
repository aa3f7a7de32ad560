//! What is read, written and read again is the same tree, but for places, ends and grouped marks; in both modes.
mod common;
use common::{enough, read, repository, text_of, words, DIRT};
use shigthapul::{check, read_file, whole_script};
use shigthapul::{Kind, Mode, Reason, Row, Token, Tokens, Tree, GROUPED, ROW_WORDS, TOKEN_WORDS};
use std::fs;

/// The entry for a tree with such a root.
fn entry(root: Kind) -> &'static str {
    match root.number() {
        0..=31 => "X",
        46 => "W",
        _ => "S",
    }
}

/// The rows of a tree without what needn't come back.
fn plain(tree: Tree) -> Vec<Row> {
    let rows = tree.nodes().map(|node| node.row());
    rows.map(|row| Row { mark: row.mark % GROUPED, place: 0, end: 0, ..row }).collect()
}

/// Writes a tree that was read from tokens, and reads what was written in both modes. Each payload must be of the class
/// that its place had.
fn there_and_back(tokens: &[u16], tree: Tree) -> Tokens {
    let written = tree.to_tokens().unwrap();
    for (&word, &place) in written.words().iter().zip(written.places()) {
        let has_payload = Token::from_word(word).expect("a token").has_payload();
        assert!(if has_payload { tokens[place as usize] == word } else { place == 0 });
    }
    let mut pool = vec![DIRT; ROW_WORDS * tree.len()];
    let root = tree.root().expect("a root").kind();
    for mode in Mode::ALL {
        let again = read(entry(root), written.words(), &mut pool, mode).unwrap();
        assert_eq!(plain(again), plain(tree));
    }
    written
}

#[test]
fn the_samples() {
    let mut scripts = 0;
    for entry in fs::read_dir(repository("samples")).unwrap() {
        let path = entry.unwrap().path();
        if path.extension().map_or(true, |end| end != "tok") {
            continue;
        }
        let mut buffer = vec![0; 20_000];
        let file = fs::read(&path).unwrap();
        let tokens = match read_file(&file, &mut buffer) {
            Ok(tokens) => tokens,
            Err(_) => continue,
        };
        let mut pool = vec![0; TOKEN_WORDS * tokens.len()];
        for mode in Mode::ALL {
            if let Ok(tree) = whole_script(tokens, &mut pool, mode) {
                there_and_back(tokens, tree);
                scripts += 1;
            }
        }
    }
    assert!(scripts >= 9, "{} scripts", scripts);
}

/// The entries and texts of a table of the oracle, whose examples take so many lines.
fn examples(table: &str, lines: usize) -> Vec<(String, String)> {
    let is_text = |line: &&str| !line.starts_with('#') && !line.trim().is_empty();
    let table = text_of(table);
    let all: Vec<&str> = table.lines().filter(is_text).collect();
    let heads =
        all.chunks(lines).map(|example| example[0].split_once(' ').unwrap_or((example[0], "")));
    heads.map(|(entry, text)| (entry[..1].to_string(), text.to_string())).collect()
}

#[test]
fn the_worked_examples() {
    let mut trees = 0;
    let tables = [examples("oracle/examples.txt", 2), examples("oracle/modes.txt", 3)].concat();
    for (entry, text) in tables {
        let tokens = words(&text);
        let mut pool = vec![0; ROW_WORDS * enough(&tokens)];
        for mode in Mode::ALL {
            match read(&entry, &tokens, &mut pool, mode) {
                Ok(tree) if !tree.is_empty() => {
                    there_and_back(&tokens, tree);
                    trees += 1;
                }
                _ => {}
            }
        }
    }
    assert!(trees >= 150, "{} trees", trees);
}

#[test]
fn what_is_written_is_written_so_again() {
    let text =
        "try { a ; } catch e { f ( b , { c : d } ) } finally { } x = lambda x , y => ! [ z ] ++ ;";
    let tokens = words(text);
    let mut pool = vec![0; ROW_WORDS * enough(&tokens)];
    let tree = whole_script(&tokens, &mut pool, Mode::Strict).unwrap();
    let once = there_and_back(&tokens, tree);
    let mut pool = vec![0; TOKEN_WORDS * once.words().len()];
    let again = whole_script(once.words(), &mut pool, Mode::Strict).unwrap();
    assert_eq!(there_and_back(once.words(), again).words(), once.words());
}

#[test]
fn a_tree_with_no_root_is_not_written() {
    let mut pool = [0; ROW_WORDS];
    let empty = read("S", &words("_E"), &mut pool, Mode::Strict).unwrap();
    let refusal = empty.to_tokens().unwrap_err();
    assert_eq!((refusal.reason, refusal.place), (Reason::NoTree, 0));
}

/// `!` so often before a name, written: each takes two more that are open, and the name one.
fn nots(count: usize) -> Result<(), (Reason, usize)> {
    let tokens = words(&("! ".repeat(count) + "a"));
    let mut pool = vec![0; ROW_WORDS * enough(&tokens)];
    let written = read("X", &tokens, &mut pool, Mode::Old).unwrap().to_tokens().unwrap();
    let again = read("X", written.words(), &mut pool, Mode::Old);
    again.map(|_| ()).map_err(|no| (no.reason, no.place))
}

#[test]
fn what_is_written_may_nest_too_deep_to_be_read() {
    assert_eq!(nots(31), Ok(()));
    assert_eq!(nots(32), Err((Reason::TooDeep, 64)));
}

#[test]
fn a_deep_tree_and_a_wide_one() {
    let deep = [words("a _NOEOF"), words("= a _NOEOF").repeat(16_000), words("")].concat();
    let wide = [words("a ; _NOEOF").repeat(16_000), words("")].concat();
    for tokens in [deep, wide] {
        let mut pool = vec![0; TOKEN_WORDS * tokens.len()];
        let tree = whole_script(&tokens, &mut pool, Mode::Strict).unwrap();
        let written = tree.to_tokens().unwrap();
        let names = |words: &[u16]| words.iter().filter(|&&word| word == 0x0700).count();
        assert_eq!(names(written.words()), names(&tokens));
        let places =
            written.words().iter().zip(written.places()).filter(|(&word, _)| word == 0x0700);
        assert!(places.map(|(_, &place)| place).eq((0..).step_by(2).take(names(&tokens))));
    }
}

/// Reads a text, writes its tree, and gives the text of that with every payload as `a`.
fn text_written(text: &str) -> String {
    let tokens = words(text);
    let mut pool = vec![0; ROW_WORDS * enough(&tokens)];
    let tree = whole_script(&tokens, &mut pool, Mode::Strict).unwrap();
    let written = there_and_back(&tokens, tree).text(|_, _| "a");
    assert_eq!(words(&written), tree.to_tokens().unwrap().words());
    written
}

#[test]
fn texts_are_laid_out_by_their_blocks() {
    assert_eq!(text_written(""), "");
    assert_eq!(text_written("a + b * c ;"), "( a + ( a * a ) ) ;");
    assert_eq!(
        text_written("if ( a ) { b } else { while ( c ) { break ; } } d"),
        "if ( a ) {\n    a ;\n} else {\n    while ( a ) {\n        break ;\n    }\n}\na ;"
    );
    assert_eq!(
        text_written("try { } catch { a : b } { } finally { }"),
        "try {\n} catch { a : a } {\n} finally {\n}"
    );
    assert_eq!(text_written("func f ( ) { } { } ;"), "func a ( ) {\n}\n{ } ;");
    assert_eq!(text_written("return { a : { } } ; { } ;"), "return { a : { } } ;\n{ } ;");
    assert_eq!(text_written("lambda a => { }"), "( lambda a => { } ) ;");
    assert_eq!(
        text_written("for a in { } => { { } ; } foreach { } , { } , [ ] => { assert { } , { } ; }"),
        "for a in { } => {\n    { } ;\n}\nforeach { } , { } , [ ] => {\n    assert { } , { } ;\n}"
    );
    assert_eq!(
        text_written("var x = { } ; const y = [ { } , { a : b } ] ; throw { } ; f ( { } )"),
        "var a = { } ;\nconst a = [ { } , { a : a } ] ;\nthrow { } ;\n( a ( { } ) ) ;"
    );
}

#[test]
fn a_row_that_is_appended_and_linked() {
    let tokens = words("a ; b ;");
    let mut pool = vec![0; TOKEN_WORDS * tokens.len()];
    let tree = whole_script(&tokens, &mut pool, Mode::Strict).unwrap();
    let (root, rows) = (tree.root().unwrap().reference(), tree.len() as u32);
    let last = tree.root().unwrap().list(0).last().unwrap();
    let (reference, row) = (last.reference(), last.row());
    assert!(Row { next: rows + 1, ..row }.put(&mut pool, reference));
    assert!(Row::new(Kind::Return, 0).put(&mut pool, rows + 1));
    let changed = check(&pool, root).unwrap();
    assert_eq!(changed.root().list(0).count(), 3);
    assert_eq!(changed.walk().count(), rows as usize + 1);
    assert_eq!(changed.to_tokens().unwrap().words(), words("a ; b ; return ;"));
}
