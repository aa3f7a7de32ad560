//! The two modes of reading.

/// By which rules a script is read. There is no default: each call says which.
///
/// What strict mode doesn't refuse by [`Reason::WrongSign`](crate::Reason::WrongSign) has the same
/// answer and the same rows in both.
///
/// ```
/// use shigthapul::{one_expression, Mode, Reason, Symbol, Token, ROW_WORDS};
///
/// // width ( a b
/// let (name, open) = (Token::Identifier, Token::Operator(Symbol::SLParen));
/// let words = [name, open, name, name, Token::EOF].map(Token::word);
/// let mut pool = [0; 3 * ROW_WORDS];
///
/// // In the old mode `b` is the closing bracket.
/// assert_eq!(one_expression(&words, &mut pool, 0, Mode::Old).unwrap().last_place(), 3);
///
/// // In strict mode it is not: the refusal is at `a`, behind which the bracket is missing.
/// let refusal = one_expression(&words, &mut pool, 0, Mode::Strict).unwrap_err();
/// assert_eq!((refusal.reason, refusal.place), (Reason::WrongSign, 2));
/// ```
#[derive(Clone, Copy, Debug, PartialEq, Eq, Hash)]
pub enum Mode {
    /// The original's rules: any token closes a call that has arguments, and any token opens the
    /// body of while, foreach or finally.
    Old,
    /// A call with arguments needs its `)`, and the bodies of while, foreach and finally need
    /// their `{`.
    Strict,
}

impl Mode {
    /// Both modes.
    pub const ALL: [Mode; 2] = [Mode::Old, Mode::Strict];

    /// Whether it is strict mode.
    pub const fn is_strict(self) -> bool {
        matches!(self, Mode::Strict)
    }
}
