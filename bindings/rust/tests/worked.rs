//! The worked examples of the repository: `oracle/examples.txt`, with the oddities to keep and the
//! edges, and the tables of `docs/DIFFERENCES.md`.
mod common;
use common::{answer, enough, read, text_of, words};
use shigthapul::{Mode, ROW_WORDS};

#[test]
fn the_table_of_the_oracle() {
    let table = text_of("oracle/examples.txt");
    let is_text = |line: &&str| !line.starts_with('#') && !line.trim().is_empty();
    let lines: Vec<&str> = table.lines().filter(is_text).collect();
    assert!(lines.len() >= 140 && lines.len() % 2 == 0);
    for pair in lines.chunks(2) {
        let (head, text) = pair[0].split_once(' ').unwrap_or((pair[0], ""));
        let (entry, rows) = head.split_once('/').unwrap_or((head, ""));
        let tokens = words(text);
        let rows = rows.parse().unwrap_or_else(|_| enough(&tokens));
        let [old, strict] = Mode::ALL.map(|mode| answer(entry, &tokens, rows, mode));
        assert_eq!(old, pair[1].trim(), "{}", pair[0]);
        assert!(strict == old || strict.starts_with("no 30 "), "{}", pair[0]);
    }
}

/// The heads of tables whose third column has answers, and of those where it has the ends of rows.
const HEAD: &str = "| Entry | Tokens | ";
const HEAD_OF_ENDS: &str = "| Entry | Tokens | Ends |";

/// A line of a table: the entry, the mode, the rows if they are few, the tokens, and the answer.
struct Line<'a> {
    entry: &'a str,
    mode: Mode,
    rows: Option<usize>,
    tokens: Vec<u16>,
    answer: &'a str,
}

/// The line of a table's text, if it is an example whose tokens are given one by one.
fn line_of(text: &str) -> Option<Line<'_>> {
    let mut columns = text.strip_prefix("| ")?.split(" | ");
    let (head, tokens, answer) = (columns.next()?, columns.next()?, columns.next()?);
    let (head, mode) = match head.strip_prefix("strict ") {
        Some(head) => (head, Mode::Strict),
        None => (head, Mode::Old),
    };
    let (entry, rows) = head.split_once(", ").unwrap_or((head, ""));
    let rows = rows.split(' ').next().and_then(|count| count.parse().ok());
    let tokens = words(tokens.strip_prefix('`')?.strip_suffix('`')?);
    let answer = answer.trim_end_matches(" |");
    ["X", "S", "W"].contains(&entry).then(|| Line { entry, mode, rows, tokens, answer })
}

/// The number behind some words of a text.
fn number_behind(text: &str, before: &str) -> Option<usize> {
    let (_, behind) = text.split_once(before)?;
    behind.split(|c: char| !c.is_ascii_digit()).next()?.parse().ok()
}

/// Compares what a line says: a refusal; or an acceptance, its last place, the grouped mark.
fn compare(line: &Line, text: &str) {
    let mut pool = vec![0; ROW_WORDS * line.rows.unwrap_or_else(|| enough(&line.tokens))];
    let refused = line.answer.starts_with(|first: char| first.is_ascii_digit());
    match read(line.entry, &line.tokens, &mut pool, line.mode) {
        Err(no) => assert!(
            line.answer.starts_with(&format!("{} at {}", no.number(), no.place)),
            "{}",
            text
        ),
        Ok(tree) => {
            assert!(!refused, "{}", text);
            let ends = number_behind(line.answer, "ends at ").unwrap_or(tree.last_place());
            assert_eq!(tree.last_place(), ends, "{}", text);
            let grouped = tree.root().map_or(false, |root| root.is_grouped());
            assert_eq!(line.answer.contains("grouped"), grouped, "{}", text);
        }
    }
}

/// Compares the ends of the rows with those that a line says.
fn compare_ends(line: &Line, text: &str) {
    let mut pool = vec![0; ROW_WORDS * enough(&line.tokens)];
    let tree = read(line.entry, &line.tokens, &mut pool, line.mode).expect(text);
    let ends: Vec<String> = tree.nodes().map(|node| node.end().to_string()).collect();
    assert_eq!(ends.join(" "), line.answer, "{}", text);
}

#[test]
fn the_tables_of_the_differences() {
    let page = text_of("docs/DIFFERENCES.md");
    let (mut answers, mut strict, mut ends, mut is_of_ends) = (0, 0, 0, false);
    for text in page.lines() {
        if text.starts_with(HEAD) {
            is_of_ends = text.starts_with(HEAD_OF_ENDS);
        }
        match line_of(text) {
            Some(line) if is_of_ends => {
                compare_ends(&line, text);
                ends += 1;
            }
            Some(line) => {
                compare(&line, text);
                answers += 1;
                strict += usize::from(line.mode == Mode::Strict);
            }
            None => {}
        }
    }
    assert!(answers >= 200 && strict >= 20, "{} examples, {} strict", answers, strict);
    assert!(ends >= 19, "{} examples of ends", ends);
}
