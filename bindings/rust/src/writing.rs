//! Trees back to tokens: the check of a tree in any pool, and the writer.
use crate::answer::{accepted, counted};
use crate::{raw, Node, Refusal, Tokens, Tree, Walk, MOST_ROWS, ROW_TOKENS, ROW_WORDS};

/// Checks that the rows which a root reaches in a pool are a tree, and hands it back.
///
/// Rows are reached by child and next words. They are a tree where
///
/// - each has a kind and a mark of that kind; [`GROUPED`](crate::GROUPED) only on expressions;
/// - its children are earlier rows, there where its kind needs them, and of the kinds that it takes;
/// - `next` is 0 outside of a list, and otherwise a later row, which the list takes;
/// - no row is reached twice;
/// - the root is an expression, a statement or a block.
///
/// Otherwise the reason is [`Reason::NoTree`](crate::Reason::NoTree), at the reference of the first bad
/// row, or at 0 where the pool has no such root. Rows that are not reached, places and ends are not
/// looked at.
///
/// ```
/// use shigthapul::{check, Infix, Kind, Reason, Row, ROW_WORDS};
///
/// let (left, right) = (Row::new(Kind::Identifier, 0), Row::new(Kind::Identifier, 2));
/// let sum = Row { children: [1, 2, 0, 0], ..Row::new(Kind::Infix, 1) };
/// let mut pool = [left, right, sum].map(Row::words).concat();
/// assert_eq!(check(&pool, 3).unwrap().root().infix(), Some(Infix::Plus));
///
/// // Both operands are the same row.
/// let sum = Row { children: [1, 1, 0, 0], ..sum };
/// assert!(sum.put(&mut pool, 3));
/// let refusal = check(&pool, 3).unwrap_err();
/// assert_eq!((refusal.reason, refusal.place), (Reason::NoTree, 1));
/// ```
pub fn check(pool: &[u32], root: u32) -> Result<Checked<'_>, Refusal> {
    accepted(|answer| raw::check(pool, root as usize, answer))?;
    Ok(Checked::new(pool, root))
}

/// The same for a thread with little stack. It looks only at the first
/// [`SMALL_ROWS`](crate::SMALL_ROWS) rows of the pool, as if there were no more.
pub fn check_small(pool: &[u32], root: u32) -> Result<Checked<'_>, Refusal> {
    accepted(|answer| raw::check_small(pool, root as usize, answer))?;
    Ok(Checked::new(pool, root))
}

/// Checks a tree as [`check`] does, and writes it as a script into the fronts of two buffers; answers
/// the count of tokens.
///
/// Each token has a word, EOF last, and a place: that of the row which its payload belongs to, or 0
/// where it has none ([`Token::has_payload`](crate::Token::has_payload)). Words and places behind them
/// become zero. Where either buffer is too short the reason is
/// [`Reason::TooShort`](crate::Reason::TooShort). After a refusal all words and places are zero.
///
/// ```
/// use shigthapul::{write, Kind, Reason, Row};
///
/// let sum = Row { children: [1, 2, 0, 0], ..Row::new(Kind::Infix, 4) };
/// let pool = [Row::new(Kind::Identifier, 3), Row::new(Kind::Int, 5), sum].map(Row::words).concat();
/// let (mut words, mut places) = ([7; 7], [7; 8]);
/// assert_eq!(write(&pool, 3, &mut words, &mut places), Ok(6));
/// assert_eq!(words, [0x0805, 0x0700, 0x0801, 0x0300, 0x0806, 0x0200, 0]);
/// assert_eq!(places, [0, 3, 0, 5, 0, 0, 0, 0]);
///
/// let refusal = write(&pool, 3, &mut words[..5], &mut places).unwrap_err();
/// assert_eq!((refusal.reason, refusal.place), (Reason::TooShort, 0));
/// assert_eq!((&words[..5], &places), (&[0; 5][..], &[0; 8]));
/// ```
pub fn write(
    pool: &[u32],
    root: u32,
    words: &mut [u16],
    places: &mut [u32],
) -> Result<usize, Refusal> {
    counted(|answer| raw::write(pool, root as usize, words, places, answer))
}

/// The same for a thread with little stack. It looks only at the first
/// [`SMALL_ROWS`](crate::SMALL_ROWS) rows of the pool, as if there were no more.
pub fn write_small(
    pool: &[u32],
    root: u32,
    words: &mut [u16],
    places: &mut [u32],
) -> Result<usize, Refusal> {
    counted(|answer| raw::write_small(pool, root as usize, words, places, answer))
}

/// The tokens of the tree at a root, in buffers that are large enough for it.
pub(crate) fn tokens_of(pool: &[u32], root: u32) -> Result<Tokens, Refusal> {
    let room = ROW_TOKENS * (pool.len() / ROW_WORDS).min(MOST_ROWS);
    let (mut words, mut places) = (vec![0; room], vec![0; room]);
    let count = write(pool, root, &mut words, &mut places)?;
    words.truncate(count);
    places.truncate(count);
    Ok(Tokens::new(words, places))
}

/// A tree in a pool that was checked: its root, and all that the root reaches.
///
/// The pool may have other rows as well.
///
/// ```
/// use shigthapul::{check, Kind, Row};
///
/// // An editor appends a row, and links it behind the last one of the block.
/// let first = Row { next: 3, ..Row::new(Kind::Break, 0) };
/// let block = Row { children: [1, 0, 0, 0], ..Row::new(Kind::Block, 0) };
/// let pool = [first, block, Row::new(Kind::Continue, 2)].map(Row::words).concat();
/// let script = check(&pool, 2).unwrap();
/// assert_eq!(script.walk().count(), 3);
/// let text = script.to_tokens().unwrap().text(|_, _| "");
/// assert_eq!(text, "break ;\ncontinue ;");
/// ```
#[derive(Clone, Copy, Debug, PartialEq, Eq)]
pub struct Checked<'a> {
    tree: Tree<'a>,
}

impl<'a> Checked<'a> {
    /// The tree at a root that a check has accepted.
    fn new(pool: &'a [u32], root: u32) -> Checked<'a> {
        let rows = (pool.len() / ROW_WORDS).min(MOST_ROWS);
        Checked { tree: Tree::new(pool, root, rows, 0) }
    }

    /// The root: a block, a statement or an expression.
    pub fn root(self) -> Node<'a> {
        self.tree.root().expect("the check has found it")
    }

    /// Every node with its depth, from the root down, a whole before its parts.
    pub fn walk(self) -> Walk<'a> {
        self.tree.walk()
    }

    /// The tree as a script.
    pub fn to_tokens(self) -> Result<Tokens, Refusal> {
        self.tree.to_tokens()
    }

    /// The tree as a JSON text, with the payloads of a token file.
    pub fn to_json(self, file: &[u8]) -> Result<String, Refusal> {
        self.tree.to_json(file)
    }
}
