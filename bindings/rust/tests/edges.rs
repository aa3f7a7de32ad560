//! The limits, which are the same in both modes: nesting, rows, arrays, start places, answers with few
//! words, and empty slices.
mod common;
use common::{answer, enough, line, words, DIRT};
use shigthapul::{one_expression, one_statement, raw, whole_script};
use shigthapul::{Mode, Reason, Refusal, Tree, MOST_ROWS, ROW_WORDS, TOKEN_WORDS};

/// The answer of an entry with so many rows, in both modes.
fn same_answer(entry: &str, tokens: &[u16], rows: usize) -> String {
    let [old, strict] = Mode::ALL.map(|mode| answer(entry, tokens, rows, mode));
    assert_eq!(old, strict);
    old
}

/// `!` so often and a name, read by an entry; the answer without its tree.
fn nots(entry: &str, count: usize) -> String {
    let tokens = words(&("! ".repeat(count) + "a"));
    let text = same_answer(entry, &tokens, enough(&tokens));
    let short = text.split(' ').take(if text.starts_with("no") { 3 } else { 2 });
    short.collect::<Vec<_>>().join(" ")
}

#[test]
fn nesting() {
    assert_eq!(nots("X", 63), "ok 63");
    assert_eq!(nots("X", 64), "no 2 64");
    assert_eq!(nots("S", 62), "ok 62");
    assert_eq!(nots("S", 63), "no 2 63");
    assert_eq!(nots("W", 62), "ok 63");
    assert_eq!(nots("W", 63), "no 2 63");
}

#[test]
fn rows() {
    let sum = words("a + b");
    assert_eq!(same_answer("X", &sum, 2), "no 3 2");
    assert_eq!(same_answer("X", &sum, 3), "ok 2 infix@1(identifier@0, identifier@2)");
}

#[test]
fn the_longest_array_and_the_largest_pool() {
    let names = |count| [words("a _NOEOF").repeat(count), words("")].concat();
    let longest = names(32_767);
    let mut pool = vec![DIRT; TOKEN_WORDS * longest.len()];
    for mode in Mode::ALL {
        let tree = whole_script(&longest, &mut pool, mode).unwrap();
        assert_eq!((tree.len(), tree.last_place()), (MOST_ROWS, 32_767));
        assert_eq!(pool[ROW_WORDS * MOST_ROWS..], [0; ROW_WORDS]);
        let fewer = &mut pool[..ROW_WORDS * (MOST_ROWS - 1)];
        let refusal = whole_script(&longest, fewer, mode).unwrap_err();
        assert_eq!(refusal, Refusal { reason: Reason::NoRoom, place: 32_767 });
        let refusal = whole_script(&names(32_768), &mut pool, mode).unwrap_err();
        assert_eq!(refusal, Refusal { reason: Reason::BadArray, place: 0 });
        pool.fill(DIRT);
    }
}

#[test]
fn start_places() {
    let tokens = words("a + b");
    let mut pool = [DIRT; 3 * ROW_WORDS + 6];
    for mode in Mode::ALL {
        let tree = one_expression(&tokens, &mut pool, 2, mode).unwrap();
        assert_eq!((line(tree.root()), tree.last_place()), ("identifier@2".into(), 2));
        for start in [4, 5, usize::MAX] {
            pool.fill(DIRT);
            let refused = Err(Refusal { reason: Reason::BadStart, place: 0 });
            assert_eq!(one_expression(&tokens, &mut pool, start, mode), refused);
            assert_eq!(one_statement(&tokens, &mut pool, start, mode), refused);
            assert_eq!(pool, [0; 3 * ROW_WORDS + 6]);
        }
        assert_eq!(one_expression(&tokens, &mut pool, 3, mode).unwrap_err().number(), 11);
    }
}

#[test]
fn words_that_make_no_row() {
    let tokens = words("a + b");
    for left_over in 0..ROW_WORDS {
        let mut pool = vec![DIRT; 3 * ROW_WORDS + left_over];
        let ends = |tree: Tree| tree.nodes().map(|node| node.end()).collect::<Vec<_>>();
        let read = one_expression(&tokens, &mut pool, 0, Mode::Old).map(ends);
        assert_eq!(read, Ok(vec![0, 2, 2]));
        assert!(pool[3 * ROW_WORDS..].iter().all(|&word| word == 0));
        let mut few = vec![DIRT; 2 * ROW_WORDS + left_over];
        let refused = Err(Refusal { reason: Reason::NoRoom, place: 2 });
        assert_eq!(one_expression(&tokens, &mut few, 0, Mode::Old), refused);
        assert!(few.iter().all(|&word| word == 0));
    }
}

#[test]
fn every_refusal_of_an_array() {
    for (text, place) in [
        ("_NOEOF", 0),
        ("a b _NOEOF", 1),
        ("#0B00", 0),
        ("a #0829", 1),
        ("a #091C b", 1),
        ("#0701", 0),
        ("a _EOF b", 1),
    ] {
        assert_eq!(same_answer("W", &words(text), 9), format!("no 1 {}", place), "{}", text);
    }
}

#[test]
fn short_and_long_answers() {
    let (sum, full) = (words("a + b"), [0, 3, 3, 2]);
    for length in 0..7 {
        for strict in [false, true] {
            let (mut pool, mut answer) = ([DIRT; 3 * ROW_WORDS], [9; 8]);
            raw::one_expression(&sum, &mut pool, 0, strict, &mut answer[..length]);
            let written = length.min(full.len());
            assert_eq!(answer[..written], full[..written]);
            assert!(answer[written..].iter().all(|&word| word == 9));
        }
    }
}

#[test]
fn every_function_answers_in_four_words() {
    let mut answer = [9; 5];
    raw::one_statement(&words("break"), &mut [], 0, true, &mut answer);
    assert_eq!(answer, [28, 0, 0, 0, 9]);
    raw::whole_script(&words("a"), &mut [DIRT; 3 * ROW_WORDS], true, &mut answer);
    assert_eq!(answer, [0, 3, 3, 1, 9]);
    raw::read_file(&[2, 0, 0, 2, 0, 0], &mut [9; 3], &mut answer);
    assert_eq!(answer, [0, 2, 0, 0, 9]);
    raw::fold(br"\\", &mut [9; 1], &mut answer);
    assert_eq!(answer, [0, 1, 0, 0, 9]);
    raw::text(br"\\", b"\\", &mut answer);
    assert_eq!(answer, [0, 1, 1, 0, 9]);
}

#[test]
fn empty_slices() {
    let nothing = Refusal { reason: Reason::BadArray, place: 0 };
    let no_row = Refusal { reason: Reason::NoRoom, place: 0 };
    for mode in Mode::ALL {
        assert_eq!(whole_script(&[], &mut [], mode), Err(nothing));
        assert_eq!(one_expression(&[], &mut [], 0, mode), Err(nothing));
        assert_eq!(one_statement(&[], &mut [], 0, mode), Err(nothing));
        assert_eq!(whole_script(&words(""), &mut [], mode), Err(no_row));
        raw::whole_script(&[], &mut [], mode.is_strict(), &mut []);
    }
    raw::read_file(&[], &mut [], &mut []);
    raw::fold(&[], &mut [], &mut []);
    raw::text(&[], &[], &mut []);
}
