//! The 16-bit token words of document 01: a name for each, and which words are valid.

pub const OPERATOR: u16 = 8;
pub const KEYWORD: u16 = 9;
pub const CLASSES: u16 = 11;
pub const OPERATORS: u16 = 41;
pub const KEYWORDS: u16 = 28;
pub const LONGEST: usize = 32768;

/// Names the words of one class by their codes.
macro_rules! words {
    ($class:expr; $($name:ident = $code:expr),* $(,)?) => {
        $(pub const $name: u16 = ($class << 8) | $code;)*
    };
}

words! { 1; EMPTY = 0 }
words! { 2; EOF = 0 }
words! { 3; INTEGER = 0 }
words! { 4; STR = 0 }
words! { 5; FLOAT = 0 }
words! { 6; CHAR = 0 }
words! { 7; IDENTIFIER = 0 }

words! { OPERATOR;
    PLUS = 1, MINUS = 2, MUL = 3, DIV = 4, LPAREN = 5, RPAREN = 6, LT = 7, GT = 8, LTE = 9,
    GTE = 10, SEMICOLON = 11, COMMA = 12, MOD = 13, EXCL = 14, EQ = 15, EEQ = 16, NE = 17,
    LBRACE = 18, RBRACE = 19, AND = 20, OR = 21, AND_EQ = 22, OR_EQ = 23, NEG = 24, LAND = 25,
    LOR = 26, PLUS_EQ = 27, MINUS_EQ = 28, INCR = 29, DECR = 30, MUL_EQ = 31, DIV_EQ = 32,
    MOD_EQ = 33, LBOX = 34, RBOX = 35, IMPL = 36, COLON = 37, DOT = 38, DOLLAR = 40,
}

words! { KEYWORD;
    IF = 1, ELSE = 2, WHILE = 3, FOR = 4, BREAK = 5, CONTINUE = 6, CONST = 7, VAR = 8, NONE = 9,
    FUNC = 10, RETURN = 11, TRY = 12, CATCH = 13, FINALLY = 14, THROW = 16, TRUE = 18,
    FALSE = 19, FOREACH = 20, IN = 21, LAMBDA = 24, ASSERT = 25, THREAD = 26, ASYNC = 27,
}

/// The infix operators in the order of 001, so that a word's index is its mark.
pub const INFIXES: [u16; 23] = [
    PLUS, MINUS, MUL, DIV, MOD, AND, OR, EQ, EEQ, NE, GTE, GT, LTE, LT, LOR, LAND, PLUS_EQ,
    MINUS_EQ, MUL_EQ, DIV_EQ, AND_EQ, OR_EQ, MOD_EQ,
];

/// The prefix operators in the order of 001.
pub const PREFIXES: [u16; 4] = [INCR, DECR, EXCL, NEG];

/// The suffix operators in the order of 001.
pub const SUFFIXES: [u16; 2] = [INCR, DECR];

/// The tokens that are an expression on their own.
pub const VALUES: [u16; 8] = [IDENTIFIER, INTEGER, FLOAT, CHAR, STR, TRUE, FALSE, NONE];

/// The class of a word.
pub fn class(word: u16) -> u16 {
    word >> 8
}

/// Whether class and code are among those of 01.
pub fn is_valid(word: u16) -> bool {
    let codes = match class(word) {
        OPERATOR => OPERATORS,
        KEYWORD => KEYWORDS,
        other if other < CLASSES => 1,
        _ => 0,
    };
    (word & 0xFF) < codes
}

/// Every valid word that isn't EOF, rising: 41 operators, 28 keywords and 8 others.
pub fn all_but_eof() -> Vec<u16> {
    (0..=u16::MAX).filter(|&word| is_valid(word) && word != EOF).collect()
}

#[cfg(test)]
mod tests {
    use super::*;

    #[test]
    fn there_are_77_words_besides_eof() {
        assert_eq!(all_but_eof().len(), 77);
    }
}
