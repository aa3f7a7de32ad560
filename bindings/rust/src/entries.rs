//! The three entries that read tokens.
use crate::answer::accepted;
use crate::{raw, Mode, Refusal, Tree};

/// Reads one expression from a start place. What stands behind it is not looked at.
///
/// ```
/// use shigthapul::{one_expression, Infix, Mode, Reason, ROW_WORDS};
///
/// // `a + b` and EOF
/// let tokens = [0x0700, 0x0801, 0x0700, 0x0200];
/// let mut pool = [0; 3 * ROW_WORDS];
/// let tree = one_expression(&tokens, &mut pool, 0, Mode::Strict).unwrap();
/// assert_eq!(tree.root().unwrap().infix(), Some(Infix::Plus));
/// assert_eq!(tree.last_place(), 2);
///
/// // Three rows are just enough.
/// let two = &mut pool[..2 * ROW_WORDS];
/// let refusal = one_expression(&tokens, two, 0, Mode::Strict).unwrap_err();
/// assert_eq!((refusal.reason, refusal.place), (Reason::NoRoom, 2));
/// assert_eq!(*two, [0; 2 * ROW_WORDS]);
/// ```
pub fn one_expression<'a>(
    tokens: &[u16],
    pool: &'a mut [u32],
    start: usize,
    mode: Mode,
) -> Result<Tree<'a>, Refusal> {
    tree_of(pool, |pool, answer| raw::one_expression(tokens, pool, start, mode.is_strict(), answer))
}

/// Reads one statement from a start place. A lone Empty token is accepted, and gives no root.
///
/// ```
/// use shigthapul::{one_statement, Keyword, Kind, Mode, Symbol, Token, ROW_WORDS};
///
/// let words = [
///     Token::Empty.word(),
///     Token::Keyword(Keyword::KBreak).word(),
///     Token::Operator(Symbol::SSemiColon).word(),
///     Token::EOF.word(),
/// ];
/// let mut pool = [0; ROW_WORDS];
/// assert_eq!(one_statement(&words, &mut pool, 0, Mode::Strict).unwrap().root(), None);
/// let tree = one_statement(&words, &mut pool, 1, Mode::Strict).unwrap();
/// assert_eq!(tree.root().unwrap().kind(), Kind::Break);
/// ```
pub fn one_statement<'a>(
    tokens: &[u16],
    pool: &'a mut [u32],
    start: usize,
    mode: Mode,
) -> Result<Tree<'a>, Refusal> {
    tree_of(pool, |pool, answer| raw::one_statement(tokens, pool, start, mode.is_strict(), answer))
}

/// Reads a whole script. The root is a block at place 0.
///
/// ```
/// use shigthapul::{whole_script, Kind, Mode, ROW_WORDS};
///
/// // `a b` and EOF: statements need nothing between them.
/// let mut pool = [0; 5 * ROW_WORDS];
/// let tree = whole_script(&[0x0700, 0x0700, 0x0200], &mut pool, Mode::Strict).unwrap();
/// let statements: Vec<Kind> = tree.root().unwrap().children().map(|node| node.kind()).collect();
/// assert_eq!(statements, [Kind::Expression, Kind::Expression]);
/// ```
pub fn whole_script<'a>(
    tokens: &[u16],
    pool: &'a mut [u32],
    mode: Mode,
) -> Result<Tree<'a>, Refusal> {
    tree_of(pool, |pool, answer| raw::whole_script(tokens, pool, mode.is_strict(), answer))
}

/// The tree that a call reads into a pool, or its refusal.
fn tree_of(
    pool: &mut [u32],
    call: impl FnOnce(&mut [u32], &mut [u64]),
) -> Result<Tree<'_>, Refusal> {
    let [root, rows, place] = accepted(|answer| call(pool, answer))?;
    Ok(Tree::new(pool, root as u32, rows as usize, place as usize))
}
