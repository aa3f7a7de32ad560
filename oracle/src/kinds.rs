//! The kinds of rows of document 01 by number, with a word for each.

macro_rules! kinds {
    ($($name:ident = $number:expr, $word:expr;)*) => {
        $(pub const $name: u32 = $number;)*

        /// The word for a kind, for people.
        pub fn word(kind: u32) -> &'static str {
            match kind {
                $($number => $word,)*
                _ => "unknown kind",
            }
        }

        /// Every kind.
        pub const ALL: &[u32] = &[$($number),*];
    };
}

kinds! {
    NONE = 1, "none";
    IDENTIFIER = 2, "identifier";
    INT = 3, "int";
    FLOAT = 4, "float";
    CHAR = 5, "char";
    STRING = 6, "string";
    BOOL = 7, "bool";
    ARRAY = 8, "array";
    HASH = 9, "hash";
    INDEX = 10, "index";
    CALL = 11, "call";
    INFIX = 12, "infix";
    PREFIX = 13, "prefix";
    SUFFIX = 14, "suffix";
    LAMBDA = 15, "lambda";
    SHELL = 16, "shell";
    ATTRIBUTE = 17, "attribute";
    NAME = 18, "name";
    PAIR = 19, "pair";
    BREAK = 32, "break";
    CONTINUE = 33, "continue";
    VAR = 34, "var";
    CONST = 35, "const";
    RETURN = 36, "return";
    THROW = 37, "throw";
    EXPRESSION = 38, "expression";
    TRY = 39, "try";
    FUNCTION = 40, "function";
    FOR = 41, "for";
    WHILE = 42, "while";
    ASSERT = 43, "assert";
    IF = 44, "if";
    FOREACH = 45, "foreach";
    BLOCK = 46, "block";
}

/// The mark added to a row that a bracketed expression hands back.
pub const GROUPED: u32 = 256;
pub const THREAD: u32 = 1;
pub const ASYNC: u32 = 2;
