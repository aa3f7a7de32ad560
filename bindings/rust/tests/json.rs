//! Trees as JSON texts: the worked examples of `oracle/json.txt`, nests, the edges, and the recorded texts.
mod common;
use common::pools::{breaks, no_tree, number, pool_of, row, rows_of};
use common::{field, repository, text_of, DIRT};
use shigthapul::{check, json, json_small, raw};
use shigthapul::{Kind, Prefix, Reason, Refusal, Row, Token};
use shigthapul::{MOST_ROWS, ROW_BYTES, ROW_WORDS, SMALL_ROWS};
use std::fs;

/// What a buffer has in it before it is lent.
const DIRTY_BYTE: u8 = 0xA5;

/// A text, as bytes, or a refusal.
type Answer = Result<Vec<u8>, Refusal>;

/// A writer of the crate.
type Json = for<'a> fn(&[u32], u32, &[u8], &'a mut [u8]) -> Result<&'a str, Refusal>;

const BOTH: [Json; 2] = [json, json_small];

const NO_ROOM: Refusal = Refusal { reason: Reason::TooShort, place: 0 };

/// The refusal of a tree that is too deep.
fn too_deep(place: usize) -> Refusal {
    Refusal { reason: Reason::DeepTree, place }
}

/// Writes a tree into a dirty buffer with so much room. What is behind the text must have become zero, and after a
/// refusal all must; the text must be UTF-8 also for the standard library.
fn written(by: Json, pool: &[u32], root: u32, file: &[u8], room: usize) -> Answer {
    let mut buffer = vec![DIRTY_BYTE; room];
    let answer = by(pool, root, file, &mut buffer).map(|text| text.as_bytes().to_vec());
    let length = answer.as_ref().map_or(0, |text| text.len());
    assert!(buffer[length..] == vec![0; room - length], "a byte is left");
    assert!(std::str::from_utf8(&buffer).is_ok(), "no UTF-8");
    answer
}

/// Writes a tree in every way, as it is and with other ends in its rows; all must agree.
fn answer(pool: &[u32], root: u32, file: &[u8]) -> Answer {
    let mut other = pool.to_vec();
    other.chunks_exact_mut(ROW_WORDS).for_each(|row| row[ROW_WORDS - 1] = !row[ROW_WORDS - 1]);
    let plenty = ROW_BYTES * (pool.len() / ROW_WORDS) + 1_000;
    let answer = written(json, pool, root, file, plenty);
    for (by, pool) in BOTH.into_iter().flat_map(|by| [(by, pool), (by, &other)]) {
        assert_eq!(written(by, pool, root, file, plenty), answer);
        if let Ok(text) = &answer {
            assert_eq!(written(by, pool, root, file, text.len()), answer);
            for room in [text.len() - 1, text.len() / 2, 0] {
                assert_eq!(written(by, pool, root, file, room), Err(NO_ROOM));
            }
        }
    }
    if let Ok(text) = &answer {
        let whole = check(pool, root).unwrap().to_json(file).unwrap();
        assert_eq!(whole.as_bytes(), text);
    }
    answer
}

/// The bytes of hexadecimal digits.
fn bytes_of(digits: &str) -> Vec<u8> {
    let pairs = digits.as_bytes().chunks(2).map(|pair| std::str::from_utf8(pair).expect("digits"));
    pairs.map(|pair| u8::from_str_radix(pair, 16).expect("two digits")).collect()
}

/// The file of a line of the table: words of digits, and before them maybe how often, and a star.
fn file_of(line: &str) -> Vec<u8> {
    let words = line.trim_matches(&['[', ']'][..]).split_whitespace();
    words
        .flat_map(|word| match word.split_once('*') {
            Some((times, digits)) => bytes_of(digits).repeat(number(times) as usize),
            None => bytes_of(word),
        })
        .collect()
}

/// The text of a line of the table, in which `<7F>` stands for a byte.
fn text_in(line: &str) -> Vec<u8> {
    let mut parts = line.split('<');
    let first = parts.next().unwrap_or("").as_bytes().to_vec();
    parts.fold(first, |text, part| {
        let (digits, rest) = part.split_once('>').expect("a byte's end");
        [text, bytes_of(digits), rest.as_bytes().to_vec()].concat()
    })
}

/// The answer of a line of the table.
fn answer_of(text: &str) -> Answer {
    if let ["no", refusal, place] = text.split(' ').collect::<Vec<_>>()[..] {
        let reason = Reason::from_number(number(refusal)).expect("a refusal");
        return Err(Refusal { reason, place: number(place) as usize });
    }
    Ok(text_in(text))
}

/// Has an example of the table written: the root, maybe the room behind a stroke, and the answer.
fn compare(pool: &[u32], file: &[u8], line: &str) {
    let (head, expected) = line.trim().split_once(": ").expect("a root and an answer");
    let expected = answer_of(expected);
    match head.split_once('/') {
        None => assert_eq!(answer(pool, number(head), file), expected, "{}", line),
        Some((root, room)) => {
            for by in BOTH {
                let found = written(by, pool, number(root), file, number(room) as usize);
                assert_eq!(found, expected, "{}", line);
            }
        }
    }
}

#[test]
fn the_table_of_texts() {
    let table = text_of("oracle/json.txt");
    let (mut pool, mut longer, mut file, mut examples) = (vec![], vec![], vec![], 0);
    for line in table.lines().filter(|line| !line.starts_with('#') && !line.is_empty()) {
        if line.starts_with(' ') {
            compare(&pool, &file, line);
            compare(&longer, &file, line);
            examples += 1;
        } else if line.starts_with('[') {
            file = file_of(line);
        } else {
            pool = rows_of(line);
            longer = [&pool[..], &[DIRT; ROW_WORDS - 1]].concat();
        }
    }
    assert!(examples >= 120, "{} examples", examples);
}

/// A row, and so many prefix rows over it.
fn nots(first: Row, count: u32) -> Vec<u32> {
    let not = |child| Row { mark: Prefix::Not.number(), ..row(Kind::Prefix, [child, 0, 0, 0]) };
    let rows = std::iter::once(first).chain((1..=count).map(not));
    rows.flat_map(|row| row.words()).collect()
}

/// Names with so many infix rows between them, which lean to the left.
fn chain(count: u32) -> Vec<u32> {
    let name = Row::new(Kind::Identifier, 0);
    let sum = |number: u32| row(Kind::Infix, [2 * number - 1, 2 * number, 0, 0]);
    let rows = (1..=count).flat_map(|number| [name, sum(number)]);
    std::iter::once(name).chain(rows).flat_map(|row| row.words()).collect()
}

#[test]
fn nests() {
    let (file, name) = (field(Token::Identifier, b"a"), Row::new(Kind::Identifier, 0));
    for (count, expected) in [(126, Ok(127)), (127, Ok(128)), (128, Err(too_deep(1)))] {
        let text = answer(&nots(name, count), count + 1, &file);
        let objects = |text: Vec<u8>| text.iter().filter(|&&byte| byte == b'{').count();
        assert_eq!(text.map(objects), expected);
    }
    assert!(answer(&chain(127), 255, &file).is_ok());
    assert_eq!(answer(&chain(128), 257, &file), Err(too_deep(1)));
    // A list is not deep, and its members are children of its owner.
    let array = |length: u32| {
        let names = (2..=length).map(|next| Row { next, ..name }).chain([name]);
        names.chain([row(Kind::Array, [1, 0, 0, 0])]).flat_map(|row| row.words()).collect()
    };
    let wide: Vec<u32> = array(200);
    assert!(answer(&wide, 201, &file).is_ok());
    let above = |pool: &[u32], count: u32| {
        let first = (pool.len() / ROW_WORDS) as u32;
        let nots = (first..first + count).map(|child| row(Kind::Prefix, [child, 0, 0, 0]));
        pool.iter().copied().chain(nots.flat_map(|row| row.words())).collect::<Vec<u32>>()
    };
    assert!(answer(&above(&wide, 126), 327, &file).is_ok());
    assert_eq!(answer(&above(&wide, 127), 328, &file), Err(too_deep(1)));
}

#[test]
fn which_refusal_comes_first() {
    let (name, file) = (Row::new(Kind::Identifier, 0), field(Token::Identifier, b"a"));
    let deep = nots(name, 128);
    for by in BOTH {
        // The file; then the rows and their fields; then the depth; then the room.
        let cut = [&file[..], &[7, 0, 1]].concat();
        let not_unicode = [&file[..], &field(Token::Unknown, b"\xFF"), &[7, 0, 1]].concat();
        let long = vec![0; 60_001];
        let refused =
            |file: &[u8], pool: &[u32], room| written(by, pool, 129, file, room).unwrap_err();
        let numbered = |refusal: Refusal| (refusal.number(), refusal.place);
        assert_eq!(numbered(refused(&long, &[], 0)), (6, 0));
        assert_eq!(numbered(refused(&cut, &[], 0)), (5, 1));
        assert_eq!(numbered(refused(&not_unicode, &deep, 0)), (33, 1));
        assert_eq!(numbered(refused(&file, &[], 0)), (38, 0));
        assert_eq!(numbered(refused(&[], &deep, 0)), (38, 1));
        assert_eq!(numbered(refused(&field(Token::Str, b"a"), &deep, 0)), (38, 1));
        assert_eq!(numbered(refused(&file, &deep, 0)), (34, 1));
        assert_eq!(numbered(refused(&file, &deep, 9_999)), (34, 1));
        assert_eq!(written(by, &deep, 128, &file, 9), Err(NO_ROOM));
    }
    // A row that is bad and one without a field: the lower one counts.
    let rows = |first, second| pool_of(&[first, second, row(Kind::Infix, [1, 2, 0, 0])]);
    let (lost, bad) = (Row::new(Kind::Identifier, 1), Row { mark: 1, ..name });
    assert_eq!(answer(&rows(lost, bad), 3, &file), Err(no_tree(1)));
    assert_eq!(answer(&rows(bad, lost), 3, &file), Err(no_tree(1)));
    assert_eq!(answer(&rows(name, lost), 3, &file), Err(no_tree(2)));
    assert_eq!(answer(&rows(name, bad), 3, &file), Err(no_tree(2)));
}

/// A file in which each class with a payload has a field, one after the other; and the kinds that need them.
fn classes() -> (Vec<u8>, [(Kind, u32); 9]) {
    let number = [0x40, 0x09, 0x21, 0xFB, 0x54, 0x44, 0x2D, 0x18];
    let fields = [
        field(Token::Identifier, "größe".as_bytes()),
        field(Token::Integer, &number),
        field(Token::Float, &number),
        field(Token::Char, &[0, 0, 0, b'"']),
        field(Token::Str, br"\\"),
        field(Token::Unknown, b"a"),
    ];
    let names = [Kind::Identifier, Kind::Name, Kind::Var, Kind::Const, Kind::Function];
    let [a, b, c, d, e] = names.map(|kind| (kind, 0));
    let (int, float) = ((Kind::Int, 1), (Kind::Float, 2));
    (fields.concat(), [a, b, c, d, e, int, float, (Kind::Char, 3), (Kind::String, 4)])
}

#[test]
fn each_kind_needs_its_class() {
    let (file, kinds) = classes();
    for (kind, place) in kinds {
        for other in (0..8).chain([20_000, 65_536, 65_536 + place, u32::MAX]) {
            // Row 1 is of the kind, or row 3 where it needs children; all else needs no payload.
            let none = Row::new(Kind::None, u32::MAX);
            let block = Row::new(Kind::Block, 0);
            let name = Row::new(Kind::Identifier, 0);
            let (rows, root, bad) = match kind {
                Kind::Name => {
                    let part = Row::new(kind, other);
                    (vec![name, part, row(Kind::Attribute, [1, 2, 0, 0])], 3, 2)
                }
                Kind::Const => {
                    (vec![none, Row { children: [1, 0, 0, 0], ..Row::new(kind, other) }], 2, 2)
                }
                Kind::Function => {
                    (vec![block, Row { children: [0, 1, 0, 0], ..Row::new(kind, other) }], 2, 2)
                }
                _ => (vec![Row::new(kind, other)], 1, 1),
            };
            let found = answer(&pool_of(&rows), root, &file);
            let expected = if other == place { Ok(()) } else { Err(no_tree(bad)) };
            assert_eq!(found.map(|_| ()), expected, "{} at {}", kind, other);
        }
    }
}

#[test]
fn no_other_kind_has_its_place_looked_at() {
    for kind in [Kind::None, Kind::Bool, Kind::Array, Kind::Hash, Kind::Break, Kind::Return] {
        for place in [0, 1, 20_000, u32::MAX] {
            let text = answer(&pool_of(&[Row::new(kind, place)]), 1, &[]).unwrap();
            let head = format!(r#"{{"kind":"{}","mark":0,"place":{}"#, kind, place);
            assert!(text.starts_with(head.as_bytes()), "{} at {}", kind, place);
        }
    }
}

#[test]
fn roots_outside_and_empty_slices() {
    let pool = pool_of(&[Row::new(Kind::Break, 0)]);
    for root in [0, 2, 65_536, u32::MAX] {
        assert_eq!(answer(&pool, root, &[]), Err(no_tree(0)));
    }
    for by in BOTH {
        for root in [0, 1] {
            assert_eq!(written(by, &[], root, &[], 0), Err(no_tree(0)));
            assert_eq!(written(by, &[DIRT; ROW_WORDS - 1], root, &[], 9), Err(no_tree(0)));
        }
        assert_eq!(written(by, &pool, 1, &[], 0), Err(NO_ROOM));
    }
    let mut answer = [9; 4];
    raw::json(&pool, usize::MAX, &[], &mut [DIRTY_BYTE; 3], &mut answer);
    assert_eq!(answer, [38, 0, 0, 0]);
    raw::json_small(&pool, (1 << 32) + 1, &[], &mut [], &mut answer);
    assert_eq!(answer, [38, 0, 0, 0]);
    raw::json(&[], 0, &[], &mut [], &mut []);
    raw::json_small(&[], 0, &[], &mut [], &mut []);
}

#[test]
fn short_and_long_answers() {
    let pool = pool_of(&[Row::new(Kind::Break, 0)]);
    let text = br#"{"kind":"break","mark":0,"place":0}"#;
    for length in 0..7 {
        let written = length.min(4);
        let (mut buffer, mut answer) = ([DIRTY_BYTE; 40], [9; 8]);
        raw::json(&pool, 1, &[], &mut buffer, &mut answer[..length]);
        assert_eq!(answer[..written], [0, text.len() as u64, 0, 0][..written]);
        assert!(answer[written..].iter().all(|&word| word == 9));
        assert_eq!(buffer[..text.len()], text[..]);
        let mut answer = [9; 8];
        raw::json_small(&pool, 1, &[3], &mut buffer, &mut answer[..length]);
        assert_eq!(answer[..written], [5, 0, 0, 0][..written]);
        assert!(answer[written..].iter().all(|&word| word == 9));
        assert_eq!(buffer, [0; 40]);
    }
}

#[test]
fn the_small_function_looks_at_the_first_rows_only() {
    let rows = SMALL_ROWS as u32;
    let mut pool = breaks(SMALL_ROWS - 1);
    let room = 40 * SMALL_ROWS;
    let full = written(json, &pool, rows, &[], room).unwrap();
    assert_eq!(written(json_small, &pool, rows, &[], room).unwrap(), full);
    // One more row, which the last statement may refer to, and which may be a root.
    let last = Row { next: rows + 1, ..Row::new(Kind::Break, 0) };
    assert!(last.put(&mut pool, rows - 1));
    pool.extend(Row::new(Kind::Continue, 0).words());
    assert!(written(json, &pool, rows, &[], room).unwrap().len() > full.len());
    assert!(written(json, &pool, rows + 1, &[], room).is_ok());
    let refused = written(json_small, &pool, rows, &[], room);
    assert_eq!(refused, Err(no_tree(SMALL_ROWS - 1)));
    assert_eq!(written(json_small, &pool, rows + 1, &[], room), Err(no_tree(0)));
    // Rows behind the first ones don't matter where nothing leads to them.
    assert!(Row::new(Kind::Break, 0).put(&mut pool, rows - 1));
    assert_eq!(written(json_small, &pool, rows, &[], room).unwrap(), full);
}

#[test]
fn the_largest_pool_and_the_longest_file() {
    let rows = MOST_ROWS as u32;
    let mut pool = breaks(MOST_ROWS - 1);
    let file = [1, 0, 0].repeat(20_000);
    let statement = r#"{"kind":"break","mark":0,"place":0},"#.len();
    let length =
        r#"{"kind":"block","mark":0,"place":0,"c0":[]}"#.len() + statement * (MOST_ROWS - 1) - 1;
    let text = written(json, &pool, rows, &file, length).unwrap();
    assert_eq!(text.len(), length);
    assert_eq!(written(json, &pool, rows, &file, length - 1), Err(NO_ROOM));
    // A row more is no row of the pool.
    pool.extend(Row::new(Kind::Break, 0).words());
    assert_eq!(written(json, &pool, rows, &file, length).unwrap(), text);
    assert_eq!(written(json, &pool, rows + 1, &file, length), Err(no_tree(0)));
    let longer = [&file[..], &[0]].concat();
    let refusal = written(json, &pool, rows, &longer, 99).unwrap_err();
    assert_eq!((refusal.number(), refusal.place), (6, 0));
}

#[test]
fn rows_that_share_a_field() {
    // A hundred names of 500 bytes, each of which takes six: more than a tree that was read can need.
    let file = field(Token::Identifier, &[1; 500]);
    let names = (2..=100).map(|next| Row { next, ..Row::new(Kind::Identifier, 0) });
    let rows = names.chain([Row::new(Kind::Identifier, 0), row(Kind::Array, [1, 0, 0, 0])]);
    let pool: Vec<u32> = rows.flat_map(|row| row.words()).collect();
    let text = check(&pool, 101).unwrap().to_json(&file).unwrap();
    assert_eq!(text.matches(r"\u0001").count(), 100 * 500);
    assert!(!text.contains(|c: char| c < ' ') && text.ends_with(r#"\u0001"}]}"#));
}

/// The next so many bytes of a list.
fn take<'a>(list: &mut &'a [u8], count: usize) -> &'a [u8] {
    let (taken, rest) = list.split_at(count);
    *list = rest;
    taken
}

/// Numbers of 32 bits, the low byte first.
fn numbers(bytes: &[u8]) -> Vec<u32> {
    let fours = bytes.chunks_exact(4).map(|four| four.try_into().expect("four bytes"));
    fours.map(u32::from_le_bytes).collect()
}

/// Every record of the list that the program `retell` is run on; `docs/RECORDED.md` says what a record is.
#[test]
fn the_recorded_texts() {
    const LIST: &str = "crates/retell/stdin";
    let list = match fs::read(repository(LIST)) {
        Ok(list) => list,
        Err(error) => return println!("{}: {}; no recorded text is run", LIST, error),
    };
    let (mut rest, mut records, mut texts) = (&list[..], 0, 0);
    while !rest.is_empty() {
        let head = numbers(take(&mut rest, 28));
        let [pool, file, room, length] = [1, 2, 3, 5].map(|at| head[at] as usize);
        let (root, refusal) = (head[0], head[4]);
        let pool = numbers(take(&mut rest, 4 * pool));
        let file = take(&mut rest, file);
        let expected = match Reason::from_number(refusal) {
            Some(reason) => Err(Refusal { reason, place: length }),
            None => Ok(take(&mut rest, length).to_vec()),
        };
        assert_eq!(written(json, &pool, root, file, room), expected, "record {}", records);
        if pool.len() / ROW_WORDS <= SMALL_ROWS {
            assert_eq!(written(json_small, &pool, root, file, room), expected, "{}", records);
        }
        records += 1;
        texts += usize::from(refusal == 0);
    }
    assert!(records >= 2_000 && texts >= 1_000, "{} records, {} texts", records, texts);
}
