//! The check of a tree and the writer: the worked examples of `oracle/trees.txt`, and the edges.
mod common;
use common::pools::{breaks, no_tree, number, pool_of, row, rows_of, trees};
use common::{text_of, words, DIRT};
use shigthapul::{check, check_small, raw, write, write_small};
use shigthapul::{Keyword, Kind, Reason, Refusal, Row, Symbol, Token};
use shigthapul::{GROUPED, MOST_ROWS, ROW_TOKENS, ROW_WORDS, SMALL_ROWS};

/// What a buffer of words has in it before it is lent.
const DIRTY_WORD: u16 = 0xBEEF;

/// The answer of the writer: words and places, or a refusal.
type Answer = Result<(Vec<u16>, Vec<u32>), Refusal>;

/// A writer of the crate.
type Write = fn(&[u32], u32, &mut [u16], &mut [u32]) -> Result<usize, Refusal>;

const NO_ROOM: Refusal = Refusal { reason: Reason::TooShort, place: 0 };

/// Writes a tree into dirty buffers with so much room; what is behind the tokens must have become zero,
/// and after a refusal all must.
fn written(by: Write, pool: &[u32], root: u32, room: (usize, usize)) -> Answer {
    let (mut words, mut places) = (vec![DIRTY_WORD; room.0], vec![DIRT; room.1]);
    let answer = by(pool, root, &mut words, &mut places);
    let count = answer.unwrap_or(0);
    assert!(words[count..].iter().all(|&word| word == 0), "a word is left");
    assert!(places[count..].iter().all(|&place| place == 0), "a place is left");
    words.truncate(count);
    places.truncate(count);
    answer.map(|_| (words, places))
}

/// Checks and writes a tree in every way, as it is and with other ends in its rows; all must agree.
fn answer(pool: &[u32], root: u32) -> Answer {
    let mut other = pool.to_vec();
    other.chunks_exact_mut(ROW_WORDS).for_each(|row| row[ROW_WORDS - 1] = !row[ROW_WORDS - 1]);
    let answer = in_every_way(pool, root);
    assert_eq!(in_every_way(&other, root), answer);
    answer
}

/// Checks and writes a tree in every way.
fn in_every_way(pool: &[u32], root: u32) -> Answer {
    let plenty = ROW_TOKENS * (pool.len() / ROW_WORDS);
    let answer = written(write, pool, root, (plenty, plenty + 1));
    assert_eq!(written(write_small, pool, root, (plenty, plenty + 1)), answer);
    let verdict = check(pool, root).map(|tree| tree.root().reference());
    assert_eq!(verdict, answer.clone().map(|_| root));
    assert_eq!(check_small(pool, root).map(|tree| tree.root().reference()), verdict);
    if let Ok((words, _)) = &answer {
        let count = words.len();
        for by in [write as Write, write_small] {
            assert_eq!(written(by, pool, root, (count, count)), answer);
            for room in [(count - 1, count), (count, count - 1), (0, 0), (count + 9, 0)] {
                assert_eq!(written(by, pool, root, room), Err(NO_ROOM));
            }
        }
    }
    answer
}

/// The answer of a line of the table.
fn answer_of(text: &str) -> Answer {
    if let ["no", refusal, place] = text.split_whitespace().collect::<Vec<_>>()[..] {
        let reason = Reason::from_number(number(refusal)).expect("a refusal");
        return Err(Refusal { reason, place: number(place) as usize });
    }
    let (tokens, pairs) = text.split_once('|').unwrap_or((text, ""));
    let words = words(tokens);
    let mut places = vec![0; words.len()];
    for (token, place) in pairs.split_whitespace().filter_map(|pair| pair.split_once(':')) {
        places[number(token) as usize] = number(place);
    }
    Ok((words, places))
}

/// Has an example of the table checked and written: the root, maybe the room behind a stroke, and the
/// answer.
fn compare(pool: &[u32], line: &str) {
    let (head, expected) = line.trim().split_once(':').expect("a root and an answer");
    let expected = answer_of(expected);
    let found = match head.split_once('/') {
        None => answer(pool, number(head)),
        Some((root, room)) => {
            let (words, places) = room.split_once(',').expect("two numbers");
            let room = (number(words) as usize, number(places) as usize);
            written(write, pool, number(root), room)
        }
    };
    assert_eq!(found, expected, "{:?}: {}", pool, line);
}

#[test]
fn the_table_of_trees() {
    let table = text_of("oracle/trees.txt");
    let (mut pool, mut longer, mut examples) = (vec![], vec![], 0);
    for line in table.lines().filter(|line| !line.starts_with('#') && !line.is_empty()) {
        if line.starts_with(' ') {
            compare(&pool, line);
            compare(&longer, line);
            examples += 1;
        } else {
            pool = rows_of(line);
            longer = [&pool[..], &[DIRT; ROW_WORDS - 1]].concat();
        }
    }
    assert!(examples >= 100, "{} examples", examples);
}

#[test]
fn every_infix_mark_has_its_operator() {
    let signs = "+ - * / % & | = == != >= > <= < || && += -= *= /= &= |= %=";
    let leaf = Row::new(Kind::Identifier, 0);
    for (mark, sign) in (0..).zip(words(&format!("{} _NOEOF", signs))) {
        for mark in [mark, mark + GROUPED] {
            let infix = Row { mark, ..row(Kind::Infix, [1, 2, 0, 0]) };
            let (words, _) = answer(&pool_of(&[leaf, leaf, infix]), 3).unwrap();
            assert_eq!(words[2], sign);
        }
    }
}

/// How many marks a kind has, by what the guide says.
fn marks(kind: Kind) -> u32 {
    match kind {
        Kind::Bool | Kind::Suffix | Kind::Shell => 2,
        Kind::Call | Kind::Prefix => 4,
        Kind::Infix => 23,
        _ => 1,
    }
}

#[test]
fn every_kind_is_written_and_no_other() {
    for rows in trees() {
        let root = rows.len() as u32;
        let kind = rows.last().unwrap().kind;
        let is_root = !matches!(kind, Kind::Name | Kind::Pair);
        assert_eq!(answer(&pool_of(&rows), root).is_ok(), is_root, "{}", kind);
    }
    for number in (0..=50).chain([256, u32::MAX]) {
        if Kind::from_number(number).is_none() {
            let mut pool = pool_of(&[Row::new(Kind::None, 0)]);
            pool[0] = number;
            assert_eq!(answer(&pool, 1), Err(no_tree(1)), "kind {}", number);
        }
    }
}

#[test]
fn every_mark_is_written_and_no_other() {
    for mut rows in trees() {
        let at = rows.len();
        let kind = rows[at - 1].kind;
        if matches!(kind, Kind::Name | Kind::Pair) {
            continue;
        }
        for mark in (0..30).chain(250..300).chain([511, 512, u32::MAX]) {
            rows[at - 1].mark = mark;
            let grouped = kind.number() < 18 && (GROUPED..GROUPED + marks(kind)).contains(&mark);
            let good = mark < marks(kind) || grouped;
            assert_eq!(answer(&pool_of(&rows), at as u32).is_ok(), good, "{} {}", kind, mark);
        }
    }
}

#[test]
fn a_child_too_few_or_too_many() {
    for rows in trees() {
        let at = rows.len();
        let kind = rows[at - 1].kind;
        let may_be_none = |slot| {
            matches!((kind, slot), (Kind::Array | Kind::Hash | Kind::Block | Kind::Function, 0))
                || matches!((kind, slot), (Kind::Var | Kind::Return, 0))
                || matches!((kind, slot), (Kind::Call, 1) | (Kind::If, 2) | (Kind::Try, 3))
        };
        for slot in 0..4 {
            let mut changed = rows.clone();
            let child = &mut changed[at - 1].children[slot];
            let was = std::mem::replace(child, if *child == 0 { 1 } else { 0 });
            let good = was != 0 && may_be_none(slot);
            let is_root = !matches!(kind, Kind::Name | Kind::Pair);
            let answer = answer(&pool_of(&changed), at as u32);
            assert_eq!(answer.is_ok(), good && is_root, "{} slot {}", kind, slot);
        }
    }
}

#[test]
fn places_are_those_of_payloads() {
    let classes = [Kind::Identifier, Kind::Int, Kind::Float, Kind::Char, Kind::String];
    for (kind, place) in classes.iter().zip([0, 1, 77, 60_000, u32::MAX]) {
        let (words, places) = answer(&pool_of(&[Row::new(*kind, place)]), 1).unwrap();
        assert_eq!(places, [place, 0]);
        assert!(Token::from_word(words[0]).unwrap().has_payload());
    }
    for rows in trees() {
        let pool = pool_of(&rows);
        if let Ok((words, places)) = answer(&pool, rows.len() as u32) {
            for (word, place) in words.iter().zip(places) {
                let token = Token::from_word(*word).expect("a token");
                assert!(token.has_payload() || place == 0, "{:?}", token);
            }
        }
    }
    for kind in [Kind::Var, Kind::Const] {
        let var = Row { place: 9, ..row(kind, [1, 0, 0, 0]) };
        let (_, places) = answer(&pool_of(&[Row::new(Kind::Int, 3), var]), 2).unwrap();
        assert_eq!(places, [0, 9, 0, 3, 0, 0]);
    }
}

#[test]
fn roots_outside_and_empty_slices() {
    let pool = pool_of(&[Row::new(Kind::Break, 0)]);
    for root in [0, 2, 65_536, u32::MAX] {
        assert_eq!(answer(&pool, root), Err(no_tree(0)));
    }
    for root in [0, 1] {
        assert_eq!(check(&[], root).map(|_| ()), Err(no_tree(0)));
        assert_eq!(check(&[DIRT; ROW_WORDS - 1], root).map(|_| ()), Err(no_tree(0)));
        assert_eq!(write(&[], root, &mut [], &mut []), Err(no_tree(0)));
    }
    assert_eq!(write(&pool, 1, &mut [], &mut []), Err(NO_ROOM));
    let mut answer = [9; 4];
    raw::check(&pool, usize::MAX, &mut answer);
    assert_eq!(answer, [38, 0, 0, 0]);
    raw::write(&pool, (1 << 32) + 1, &mut [], &mut [], &mut answer);
    assert_eq!(answer, [38, 0, 0, 0]);
    raw::write_small(&pool, 1, &mut [], &mut [], &mut []);
    raw::check_small(&[], 0, &mut []);
}

#[test]
fn short_and_long_answers() {
    let pool = pool_of(&[Row::new(Kind::Break, 0)]);
    let (mut words, mut places) = ([0; 3], [0; 3]);
    for length in 0..7 {
        let written = length.min(4);
        let mut answer = [9; 8];
        raw::write(&pool, 1, &mut words, &mut places, &mut answer[..length]);
        assert_eq!(answer[..written], [0, 3, 0, 0][..written]);
        assert!(answer[written..].iter().all(|&word| word == 9));
        let mut answer = [9; 8];
        raw::check_small(&pool, 0, &mut answer[..length]);
        assert_eq!(answer[..written], [38, 0, 0, 0][..written]);
        assert!(answer[written..].iter().all(|&word| word == 9));
    }
}

#[test]
fn the_small_functions_look_at_the_first_rows_only() {
    let rows = SMALL_ROWS as u32;
    let mut pool = breaks(SMALL_ROWS - 1);
    assert!(check_small(&pool, rows).is_ok());
    // One more row, which the last statement may refer to, and which may be a root.
    let last = Row { next: rows + 1, ..Row::new(Kind::Break, 0) };
    assert!(last.put(&mut pool, rows - 1));
    pool.extend(Row::new(Kind::Continue, 0).words());
    let plenty = (3 * SMALL_ROWS, 3 * SMALL_ROWS);
    let count = written(write, &pool, rows, plenty).unwrap().0.len();
    assert_eq!(count, 2 * SMALL_ROWS + 1);
    assert_eq!(written(write_small, &pool, rows, plenty), Err(no_tree(SMALL_ROWS - 1)));
    assert!(check(&pool, rows).is_ok() && check(&pool, rows + 1).is_ok());
    assert_eq!(check_small(&pool, rows).map(|_| ()), Err(no_tree(SMALL_ROWS - 1)));
    assert_eq!(check_small(&pool, rows + 1).map(|_| ()), Err(no_tree(0)));
    assert_eq!(written(write_small, &pool, rows + 1, plenty), Err(no_tree(0)));
    // Rows behind the first ones don't matter where nothing leads to them.
    assert!(Row::new(Kind::Break, 0).put(&mut pool, rows - 1));
    assert_eq!(written(write_small, &pool, rows, plenty).unwrap().0.len(), 2 * SMALL_ROWS - 1);
}

#[test]
fn the_largest_pool() {
    let rows = MOST_ROWS as u32;
    let mut pool = breaks(MOST_ROWS - 1);
    let (words, _) = written(write, &pool, rows, (2 * MOST_ROWS, 2 * MOST_ROWS)).unwrap();
    assert_eq!(words.len(), 2 * (MOST_ROWS - 1) + 1);
    // A row more is no row of the pool.
    pool.extend(Row::new(Kind::Break, 0).words());
    assert!(check(&pool, rows).is_ok());
    assert_eq!(check(&pool, rows + 1).map(|_| ()), Err(no_tree(0)));
    assert!(Row { next: rows + 1, ..Row::new(Kind::Break, 0) }.put(&mut pool, rows - 1));
    assert_eq!(check(&pool, rows).map(|_| ()), Err(no_tree(MOST_ROWS - 1)));
}

/// A call of a call of a call and so on, each with both flags: what takes the most tokens.
fn calls(count: usize) -> Vec<u32> {
    let call = |function| Row { mark: 3, ..row(Kind::Call, [function, 0, 0, 0]) };
    let rows = std::iter::once(Row::new(Kind::Identifier, 3)).chain((1..=count as u32).map(call));
    rows.flat_map(|row| row.words()).collect()
}

#[test]
fn no_row_is_written_as_more_tokens_than_six() {
    let largest = calls(MOST_ROWS - 1);
    let room = ROW_TOKENS * MOST_ROWS;
    let (words, places) = written(write, &largest, MOST_ROWS as u32, (room, room)).unwrap();
    assert_eq!(words.len(), 6 * (MOST_ROWS - 1) + 2);
    let name = places.iter().position(|&place| place == 3).expect("the name's place");
    assert_eq!(name, 3 * (MOST_ROWS - 1));
    let open = [Token::from(Symbol::SLParen), Keyword::KThread.into(), Keyword::KAsync.into()];
    assert_eq!(words[..3], open.map(Token::word));
}
