//! The worked examples of strict mode, `oracle/modes.txt`: each with its answer in both modes.
mod common;
use common::{answer, enough, text_of, words};
use shigthapul::Mode;

#[test]
fn the_table_of_both_modes() {
    let table = text_of("oracle/modes.txt");
    let is_text = |line: &&str| !line.starts_with('#') && !line.trim().is_empty();
    let lines: Vec<&str> = table.lines().filter(is_text).map(str::trim).collect();
    assert!(lines.len() >= 180 && lines.len() % 3 == 0);
    for example in lines.chunks(3) {
        let (head, text) = example[0].split_once(' ').expect("an entry and tokens");
        let (entry, rows) = head.split_once('/').unwrap_or((head, ""));
        let tokens = words(text);
        let rows = rows.parse().unwrap_or_else(|_| enough(&tokens));
        let [old, strict] = Mode::ALL.map(|mode| answer(entry, &tokens, rows, mode));
        let expected = if example[2] == "same" { example[1] } else { example[2] };
        assert_eq!([&old[..], &strict], [example[1], expected], "{}", example[0]);
        assert!(strict == old || strict.starts_with("no 30 "), "{}", example[0]);
    }
}
