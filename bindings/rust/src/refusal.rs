//! Refusals: why something was not read, and where.
use std::error::Error;
use std::fmt;

table! {
    /// Why something was refused, by number.
    ///
    /// ```
    /// use shigthapul::Reason;
    ///
    /// assert_eq!(Reason::from_number(19), Some(Reason::ConstWithoutValue));
    /// assert_eq!(Reason::ConstWithoutValue.text(), "const: no value");
    /// assert_eq!(Reason::from_number(7), None);
    /// ```
    Reason: u32 {
        BadArray = 1, "the array of tokens: its length, a bad word, EOF too early or missing";
        TooDeep = 2, "nested too deep";
        /// Also where a buffer of token words or of string text is too short.
        NoRoom = 3, "no row or no room left";
        BadStart = 4, "the start place lies outside the array";
        BadField = 5, "the token file: a field is cut short, or has a bad tag or length";
        TooLong = 6, "the token file: more than 60,000 bytes";
        InvalidSyntax = 10, "a sign, a bracket or in is missing; one token in a group; an early end";
        InvalidToken = 11, "no expression starts with this token; or an if without )";
        InvalidSymbol = 12, "no expression starts with this operator";
        NotImplemented = 13, "no expression starts with this keyword";
        InvalidIdentifier = 14, "a name is missing";
        AssertWithoutAction = 15, "assert: a semicolon in place of the comma";
        AssertWithoutComma = 16, "assert: no comma";
        FuncWithoutName = 17, "func: no name";
        IfWithoutBody = 18, "if: no { behind the condition";
        ConstWithoutValue = 19, "const: no value";
        ExpectedEq = 20, "var, const: no =";
        ExpectedColon = 21, "hash: no : behind a key";
        NoParameters = 22, "lambda: no parameter";
        ExpectedArrow = 23, "lambda: no =>";
        HashNotTerminated = 24, "hash: not closed";
        ArrayNotTerminated = 25, "array: not closed";
        NotCallable = 26, "thread, async: not in front of a call";
        TryWithoutCatch = 27, "try: no catch";
        BreakWithoutSemicolon = 28, "break: no ;";
        ContinueWithoutSemicolon = 29, "continue: no ;";
        /// In strict mode only: [`Mode::Strict`](crate::Mode::Strict) says which calls and bodies.
        WrongSign = 30, "a call with arguments: no ); while, foreach, finally: no {";
        /// A buffer of token words or of places is too short for a tree, or one of bytes for its JSON text.
        TooShort = 32, "no room for what is written";
        /// A Str, an Identifier or an Unknown that is not well-formed UTF-8, or a Char that is no scalar value.
        NotUnicode = 33, "the token file: a text or a Char that is not Unicode";
        /// Of [`json`](crate::json()) only, which says what a path is.
        DeepTree = 34, "too deep for a JSON text: more than 128 rows on a path";
        /// [`check`](crate::check) says what a tree is, and [`json`](crate::json()) which payload needs which field.
        NoTree = 38, "not a tree: the root, or a row that it reaches; or no field for its payload";
    }
}

/// A refusal: its reason, and its place.
///
/// The place is that of a token, from 0; for [`Reason::BadField`] and [`Reason::NotUnicode`] it is
/// that of a field, and for [`Reason::NoTree`] and [`Reason::DeepTree`] the reference of a row.
///
/// ```
/// use shigthapul::{one_expression, Mode, Reason, Refusal, Symbol, Token, ROW_WORDS};
///
/// let open = Token::Operator(Symbol::SLParen).word();
/// let close = Token::Operator(Symbol::SRparen).word();
/// let group = [open, Token::Identifier.word(), close, Token::EOF.word()];
///
/// let refusal = one_expression(&group, &mut [0; 8 * ROW_WORDS], 0, Mode::Old).unwrap_err();
/// assert_eq!(refusal, Refusal { reason: Reason::InvalidSyntax, place: 1 });
/// assert_eq!(refusal.number(), 10);
/// assert!(refusal.to_string().starts_with("refused 10 at 1: "));
/// ```
#[derive(Clone, Copy, Debug, PartialEq, Eq, Hash)]
pub struct Refusal {
    /// Why.
    pub reason: Reason,
    /// Where.
    pub place: usize,
}

impl Refusal {
    /// The number of the reason.
    pub const fn number(self) -> u32 {
        self.reason.number()
    }
}

impl fmt::Display for Refusal {
    fn fmt(&self, f: &mut fmt::Formatter<'_>) -> fmt::Result {
        write!(f, "refused {} at {}: {}", self.number(), self.place, self.reason)
    }
}

impl Error for Refusal {}
