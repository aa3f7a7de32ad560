//! Tokens, and the words that stand for them.

/// The class of an operator's word and of a keyword's.
const OPERATOR: u16 = 8;
const KEYWORD: u16 = 9;

/// The tokens that carry nothing.
const PLAIN: [Token; 9] = [
    Token::Invalid,
    Token::Empty,
    Token::EOF,
    Token::Integer,
    Token::Str,
    Token::Float,
    Token::Char,
    Token::Identifier,
    Token::Unknown,
];

/// A token, by the names of the original's `TokenKind`.
///
/// Its word has the class in the upper eight bits and the code in the lower eight. What a token
/// holds besides (a name, a number, a text) stays with the caller, who finds it by its place.
///
/// ```
/// use shigthapul::{Keyword, Symbol, Token};
///
/// assert_eq!(Token::Identifier.word(), 0x0700);
/// assert_eq!(Token::Operator(Symbol::SMul).word(), 0x0803);
/// assert_eq!(Token::from_word(0x0901), Some(Token::Keyword(Keyword::KIf)));
/// assert_eq!(Token::from_word(0x0B00), None);
/// ```
#[derive(Clone, Copy, Debug, PartialEq, Eq, Hash)]
pub enum Token {
    /// What the scanner could not read.
    Invalid,
    /// A line with nothing in it.
    Empty,
    /// The end: the last word of an array, and no other.
    EOF,
    /// A whole number.
    Integer,
    /// A string.
    Str,
    /// A number with a point.
    Float,
    /// A character.
    Char,
    /// A name.
    Identifier,
    /// An operator or another sign.
    Operator(Symbol),
    /// A keyword.
    Keyword(Keyword),
    /// What the scanner doesn't know.
    Unknown,
}

impl Token {
    /// The token's word.
    pub const fn word(self) -> u16 {
        let (class, code) = match self {
            Token::Invalid => (0, 0),
            Token::Empty => (1, 0),
            Token::EOF => (2, 0),
            Token::Integer => (3, 0),
            Token::Str => (4, 0),
            Token::Float => (5, 0),
            Token::Char => (6, 0),
            Token::Identifier => (7, 0),
            Token::Operator(symbol) => (OPERATOR, symbol.number()),
            Token::Keyword(keyword) => (KEYWORD, keyword.number()),
            Token::Unknown => (10, 0),
        };
        class << 8 | code
    }

    /// Whether it has a payload that the word doesn't say: a number, a text, a character or a name.
    pub const fn has_payload(self) -> bool {
        use Token::*;
        matches!(self, Integer | Str | Float | Char | Identifier)
    }

    /// The token of a word; none where the class or the code is bad.
    pub fn from_word(word: u16) -> Option<Token> {
        match (word >> 8, word & 0xFF) {
            (OPERATOR, code) => Symbol::from_number(code).map(Token::Operator),
            (KEYWORD, code) => Keyword::from_number(code).map(Token::Keyword),
            _ => PLAIN.iter().copied().find(|token| token.word() == word),
        }
    }
}

impl From<Token> for u16 {
    fn from(token: Token) -> u16 {
        token.word()
    }
}

impl From<Symbol> for Token {
    fn from(symbol: Symbol) -> Token {
        Token::Operator(symbol)
    }
}

impl From<Keyword> for Token {
    fn from(keyword: Keyword) -> Token {
        Token::Keyword(keyword)
    }
}

table! {
    /// The symbol of an operator, by the names and codes of the original's `SymbolKind`.
    ///
    /// ```
    /// use shigthapul::Symbol;
    ///
    /// assert_eq!(Symbol::SImpl.number(), 36);
    /// assert_eq!(Symbol::SImpl.to_string(), "=>");
    /// assert_eq!(Symbol::from_number(41), None);
    /// ```
    Symbol: u16 {
        SInvalid = 0, "_SInvalid";
        SPlus = 1, "+";
        SMinus = 2, "-";
        SMul = 3, "*";
        SDiv = 4, "/";
        SLParen = 5, "(";
        SRparen = 6, ")";
        SLt = 7, "<";
        SGt = 8, ">";
        SLte = 9, "<=";
        SGte = 10, ">=";
        SSemiColon = 11, ";";
        SComma = 12, ",";
        SMod = 13, "%";
        SExcl = 14, "!";
        SEq = 15, "=";
        SEeq = 16, "==";
        SNe = 17, "!=";
        SLBrace = 18, "{";
        SRBrace = 19, "}";
        SAnd = 20, "&";
        SOr = 21, "|";
        SAndEq = 22, "&=";
        SOrEq = 23, "|=";
        SNeg = 24, "~";
        SLAnd = 25, "&&";
        SLOr = 26, "||";
        SPlusEq = 27, "+=";
        SMinusEq = 28, "-=";
        SIncr = 29, "++";
        SDecr = 30, "--";
        SMulEq = 31, "*=";
        SDivEq = 32, "/=";
        SModEq = 33, "%=";
        SLBox = 34, "[";
        SRBox = 35, "]";
        SImpl = 36, "=>";
        SColon = 37, ":";
        SDot = 38, ".";
        SResolve = 39, "::";
        SDollar = 40, "$";
    }
}

table! {
    /// A keyword, by the names and codes of the original's `KeywordKind`.
    ///
    /// ```
    /// use shigthapul::{Keyword, Token};
    ///
    /// assert_eq!(Keyword::KForEach.number(), 20);
    /// assert_eq!(Keyword::KForEach.to_string(), "foreach");
    /// assert_eq!(Token::from(Keyword::KForEach).word(), 0x0914);
    /// ```
    Keyword: u16 {
        KInvalid = 0, "_KInvalid";
        KIf = 1, "if";
        KElse = 2, "else";
        KWhile = 3, "while";
        KFor = 4, "for";
        KBreak = 5, "break";
        KContinue = 6, "continue";
        KConst = 7, "const";
        KVar = 8, "var";
        KNone = 9, "none";
        KFunc = 10, "func";
        KReturn = 11, "return";
        KTry = 12, "try";
        KCatch = 13, "catch";
        KFinally = 14, "finally";
        KRethrow = 15, "rethrow";
        KThrow = 16, "throw";
        KAs = 17, "as";
        KTrue = 18, "true";
        KFalse = 19, "false";
        KForEach = 20, "foreach";
        KIn = 21, "in";
        KUse = 22, "use";
        KPure = 23, "pure";
        KLambda = 24, "lambda";
        KAssert = 25, "assert";
        KThread = 26, "thread";
        KAsync = 27, "async";
    }
}
