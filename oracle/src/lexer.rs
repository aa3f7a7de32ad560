//! The stand-in lexer: hands our array to the original parser, then its EOF again and again.
#![allow(clippy::enum_variant_names, clippy::upper_case_acronyms)] // the names the original uses

use crate::words;

/// An enum whose members are numbered from 0 in the listed order, with a list of them all.
macro_rules! numbered {
    ($name:ident: $($member:ident),* $(,)?) => {
        #[derive(Debug, Clone, PartialEq)]
        pub enum $name { $($member),* }

        impl $name {
            const ALL: &'static [$name] = &[$($name::$member),*];
        }
    };
}

numbered! { SymbolKind:
    SInvalid, SPlus, SMinus, SMul, SDiv, SLParen, SRparen, SLt, SGt, SLte, SGte, SSemiColon,
    SComma, SMod, SExcl, SEq, SEeq, SNe, SLBrace, SRBrace, SAnd, SOr, SAndEq, SOrEq, SNeg, SLAnd,
    SLOr, SPlusEq, SMinusEq, SIncr, SDecr, SMulEq, SDivEq, SModEq, SLBox, SRBox, SImpl, SColon,
    SDot, SResolve, SDollar,
}

numbered! { KeywordKind:
    KInvalid, KIf, KElse, KWhile, KFor, KBreak, KContinue, KConst, KVar, KNone, KFunc, KReturn,
    KTry, KCatch, KFinally, KRethrow, KThrow, KAs, KTrue, KFalse, KForEach, KIn, KUse, KPure,
    KLambda, KAssert, KThread, KAsync,
}

#[derive(Debug, Clone, PartialEq)]
pub enum TokenKind {
    Invalid,
    Empty,
    EOF,
    Integer(i64),
    Str(String),
    Float(f64),
    Char(char),
    Identifier(String),
    Operator(SymbolKind),
    Keyword(KeywordKind),
    Unknown(String),
}

#[derive(Debug, Clone)]
pub struct LexedToken {
    pub token: TokenKind,
    pub pos: usize,
}

/// The token a valid word stands for; a payload is the token's place.
fn token(word: u16, place: usize) -> TokenKind {
    let code = usize::from(word & 0xFF);
    match words::class(word) {
        0 => TokenKind::Invalid,
        1 => TokenKind::Empty,
        2 => TokenKind::EOF,
        3 => TokenKind::Integer(place as i64),
        4 => TokenKind::Str(place.to_string()),
        5 => TokenKind::Float(place as f64),
        6 => TokenKind::Char(char::from_u32(place as u32).expect("places lie below 0xD800")),
        7 => TokenKind::Identifier(place.to_string()),
        words::OPERATOR => TokenKind::Operator(SymbolKind::ALL[code].clone()),
        words::KEYWORD => TokenKind::Keyword(KeywordKind::ALL[code].clone()),
        _ => TokenKind::Unknown(place.to_string()),
    }
}

/// What the original parser asks for its tokens.
pub struct LexerAPI {
    words: Vec<u16>,
    at: usize,
}

impl LexerAPI {
    /// Over a valid array, `at` below its length.
    pub fn new(words: &[u16], at: usize) -> LexerAPI {
        LexerAPI { words: words.to_vec(), at }
    }

    fn lexed(&self, place: usize) -> LexedToken {
        let pos = place.min(self.words.len() - 1);
        LexedToken { token: token(self.words[pos], pos), pos }
    }

    pub fn iterate(&mut self) {
        self.at = (self.at + 1).min(self.words.len() - 1);
    }

    pub fn get_current_token(&mut self) -> LexedToken {
        self.lexed(self.at)
    }

    pub fn get_next_token(&mut self) -> LexedToken {
        self.lexed(self.at + 1)
    }

    pub fn tokens_are_equal(&mut self, left: &TokenKind, right: TokenKind) -> bool {
        *left == right
    }

    pub fn keywords_are_equal(&mut self, left: &KeywordKind, right: KeywordKind) -> bool {
        *left == right
    }

    pub fn symbols_are_equal(&mut self, left: &SymbolKind, right: SymbolKind) -> bool {
        *left == right
    }

    /// Only message texts need it, and those aren't compared.
    pub fn get_line_by_pos(&mut self, _pos: usize) -> (String, usize, usize) {
        (String::new(), 0, 0)
    }
}

#[cfg(test)]
mod tests {
    use super::*;

    #[test]
    fn the_enums_have_as_many_members_as_there_are_codes() {
        assert_eq!(SymbolKind::ALL.len(), usize::from(words::OPERATORS));
        assert_eq!(KeywordKind::ALL.len(), usize::from(words::KEYWORDS));
    }

    #[test]
    fn eof_comes_again_and_again() {
        let mut lexer = LexerAPI::new(&[words::EOF], 0);
        for _ in 0..3 {
            assert_eq!(lexer.get_next_token().pos, 0);
            lexer.iterate();
        }
        assert_eq!(lexer.get_current_token().token, TokenKind::EOF);
    }
}
