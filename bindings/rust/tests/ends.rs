//! Where rows end: the worked examples of `oracle/ends.txt`, the laws of all ends, and that each row ends
//! where the script is refused for want of it.
mod common;
use common::{enough, read, text_of, words, DIRT};
use shigthapul::{Mode, Reason, Refusal, Tree, ROW_WORDS};

/// The examples of a table whose examples take so many lines: entry, text, and the line behind them.
fn examples(table: &str, size: usize) -> Vec<(String, String, String)> {
    let is_text = |line: &&str| !line.starts_with('#') && !line.trim().is_empty();
    let table = text_of(table);
    let lines: Vec<&str> = table.lines().filter(is_text).map(str::trim).collect();
    let parts = lines.chunks(size).map(|lines| {
        let (head, text) = lines[0].split_once(' ').unwrap_or((lines[0], ""));
        (head[..1].to_string(), text.to_string(), lines[1].to_string())
    });
    parts.collect()
}

/// The ends of a tree's rows.
fn ends(tree: Tree) -> Vec<usize> {
    tree.nodes().map(|node| node.end()).collect()
}

/// Reads a text in a mode with rows enough, and looks at its tree.
fn looked<T>(
    entry: &str,
    text: &str,
    mode: Mode,
    look: impl FnOnce(Tree) -> T,
) -> Result<T, Refusal> {
    let tokens = words(text);
    let mut pool = vec![DIRT; ROW_WORDS * enough(&tokens)];
    read(entry, &tokens, &mut pool, mode).map(look)
}

#[test]
fn the_table_of_ends() {
    let table = examples("oracle/ends.txt", 2);
    assert!(table.len() >= 50, "{} examples", table.len());
    let mut lacking = 0;
    for (entry, text, line) in table {
        let [old, strict] = Mode::ALL.map(|mode| looked(&entry, &text, mode, ends));
        let numbers = line.strip_prefix("ends ").expect("the ends of an example").split(' ');
        let expected: Vec<usize> = numbers.map(|end| end.parse().expect("a place")).collect();
        assert_eq!(old.as_ref(), Ok(&expected), "{}", text);
        lacking += strict.is_err() as usize;
        match strict {
            Ok(ends) => assert_eq!(ends, expected, "{}", text),
            Err(refusal) => assert_eq!(refusal.reason, Reason::WrongSign, "{}", text),
        }
    }
    assert_eq!(lacking, 5);
}

/// All tables' examples that a mode accepts, with the ends of their rows.
fn accepted(mode: Mode) -> impl Iterator<Item = (String, String, Vec<usize>)> {
    let tables = [("examples", 2), ("modes", 3), ("ends", 2)];
    let all = tables.map(|(name, size)| examples(&format!("oracle/{}.txt", name), size)).concat();
    all.into_iter().filter_map(move |(entry, text, _)| {
        let ends = looked(&entry, &text, mode, ends).ok()?;
        Some((entry, text, ends))
    })
}

#[test]
fn each_row_ends_where_it_is_lacking() {
    let mut rows = 0;
    for mode in Mode::ALL {
        for (entry, text, ends) in accepted(mode) {
            let tokens = words(&text);
            for (before, &end) in ends.iter().enumerate() {
                let mut few = vec![DIRT; ROW_WORDS * before + ROW_WORDS - 1];
                let refusal = read(&entry, &tokens, &mut few, mode).unwrap_err();
                assert_eq!(refusal, Refusal { reason: Reason::NoRoom, place: end }, "{}", text);
                rows += 1;
            }
        }
    }
    assert!(rows >= 900, "{} rows", rows);
}

#[test]
fn the_laws_of_ends() {
    for mode in Mode::ALL {
        for (entry, text, ends) in accepted(mode) {
            assert!(ends.windows(2).all(|pair| pair[0] <= pair[1]), "{}: an end falls", text);
            let lawful = |tree: Tree| {
                tree.nodes()
                    .all(|node| node.place() <= node.end() && node.end() <= tree.last_place())
            };
            assert_eq!(looked(&entry, &text, mode, lawful), Ok(true), "{}", text);
        }
    }
}
