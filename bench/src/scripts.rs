//! Scripts of three kinds and any size, made by chance from fixed seeds.
use crate::chance::Chance;
use crate::words::*;

/// The kinds of scripts.
#[derive(Clone, Copy, Debug, PartialEq)]
pub enum Kind {
    /// Values joined by infix operators.
    Chains,
    /// Calls whose arguments are calls again, at most twelve deep.
    Calls,
    /// Statements of every form, as in templates, blocks at most four deep.
    Statements,
}

impl Kind {
    pub const ALL: [Kind; 3] = [Kind::Chains, Kind::Calls, Kind::Statements];

    pub fn name(self) -> &'static str {
        match self {
            Kind::Chains => "chains",
            Kind::Calls => "calls",
            Kind::Statements => "statements",
        }
    }

    pub fn named(name: &str) -> Option<Kind> {
        Kind::ALL.iter().copied().find(|kind| kind.name() == name)
    }
}

/// How deep calls nest, and blocks.
const CALLS: usize = 12;
const BLOCKS: usize = 4;

/// How often another statement is tried where one was too long for what is left.
const TRIES: usize = 30;

/// A script of exactly `length` words, EOF included; what no statement fits is filled with names. Another number gives
/// another script.
pub fn script(kind: Kind, length: usize, number: u64) -> Vec<u16> {
    let mut maker = Maker { chance: Chance::new(number), words: vec![] };
    let mut tries = 0;
    while tries < TRIES {
        let before = maker.words.len();
        match kind {
            Kind::Chains => maker.chain_statement(),
            Kind::Calls => maker.call_statement(),
            Kind::Statements => maker.statement(BLOCKS),
        }
        if maker.words.len() < length {
            tries = 0;
        } else {
            maker.words.truncate(before);
            tries += 1;
        }
    }
    while maker.words.len() + 1 < length {
        let filling = [IDENTIFIER, SEMICOLON][maker.words.len() % 2];
        maker.words.push(filling);
    }
    maker.words.push(EOF);
    maker.words
}

/// The words of a script under way.
struct Maker {
    chance: Chance,
    words: Vec<u16>,
}

impl Maker {
    fn below(&mut self, bound: usize) -> usize {
        self.chance.below(bound)
    }

    fn put(&mut self, words: &[u16]) {
        self.words.extend_from_slice(words);
    }

    /// A value; every other one is a name.
    fn value(&mut self) {
        let word = match self.below(2) {
            0 => IDENTIFIER,
            _ => VALUES[self.below(VALUES.len())],
        };
        self.put(&[word]);
    }

    /// Values joined by infix operators.
    fn chain(&mut self, most: usize) {
        self.value();
        for _ in 0..self.below(most) {
            let sign = INFIXES[self.below(INFIXES.len())];
            self.put(&[sign]);
            self.value();
        }
    }

    fn chain_statement(&mut self) {
        self.chain(12);
        self.put(&[SEMICOLON]);
    }

    /// A call of one to three arguments; at depth 0 they are values.
    fn call(&mut self, depth: usize) {
        self.put(&[IDENTIFIER, LPAREN]);
        for argument in 0..1 + self.below(3) {
            if argument > 0 {
                self.put(&[COMMA]);
            }
            if depth > 0 && self.below(2) == 0 {
                self.call(depth - 1);
            } else {
                self.value();
            }
        }
        self.put(&[RPAREN]);
    }

    fn call_statement(&mut self) {
        self.call(CALLS - 1);
        self.put(&[SEMICOLON]);
    }

    /// A block of one to three statements.
    fn block(&mut self, depth: usize) {
        self.put(&[LBRACE]);
        for _ in 0..1 + self.below(3) {
            self.statement(depth);
        }
        self.put(&[RBRACE]);
    }

    /// A statement; at depth 0 one without a block.
    fn statement(&mut self, depth: usize) {
        let forms = if depth > 0 { 16 } else { 10 };
        match self.below(forms) {
            form @ 0..=9 => self.simple_statement(form),
            form => self.block_statement(form, depth - 1),
        }
    }

    fn simple_statement(&mut self, form: usize) {
        match form {
            0 => self.put(&[VAR, IDENTIFIER, EQ]),
            1 => self.put(&[CONST, IDENTIFIER, EQ]),
            2 => self.put(&[IDENTIFIER, EQ, LPAREN, IDENTIFIER, MINUS, IDENTIFIER, RPAREN, DIV]),
            3 => self.put(&[IDENTIFIER, DOT, IDENTIFIER, PLUS_EQ]),
            4 => self.put(&[IDENTIFIER, LBOX, INTEGER, RBOX, EQ]),
            5 => self.put(&[RETURN]),
            6 => self.put(&[IDENTIFIER, EQ, LBRACE, STR, COLON, FLOAT, RBRACE, SEMICOLON, EXCL]),
            7 => self.put(&[IDENTIFIER, EQ, LBOX, FLOAT, COMMA, FLOAT, RBOX, SEMICOLON, THROW]),
            8 => self.put(&[ASSERT, IDENTIFIER, GT, FLOAT, COMMA]),
            _ => self.put(&[IDENTIFIER, INCR, SEMICOLON, IDENTIFIER, EQ]),
        }
        if self.below(3) == 0 {
            self.call(2);
        } else {
            self.chain(4);
        }
        self.put(&[SEMICOLON]);
    }

    fn block_statement(&mut self, form: usize, depth: usize) {
        match form {
            10 => self.if_statement(depth),
            11 => self.put(&[WHILE, LPAREN, IDENTIFIER, LT, INTEGER, RPAREN]),
            12 => self.put(&[FOR, IDENTIFIER, IN, IDENTIFIER, IMPL]),
            13 => self.put(&[FOREACH, IDENTIFIER, COMMA, IDENTIFIER, COMMA, IDENTIFIER, IMPL]),
            14 => self.put(&[FUNC, IDENTIFIER, LPAREN, IDENTIFIER, COMMA, IDENTIFIER, RPAREN]),
            _ => {
                self.put(&[TRY]);
                self.block(depth);
                self.put(&[CATCH, IDENTIFIER]);
            }
        }
        self.block(depth);
    }

    /// An if up to its else, whose block follows.
    fn if_statement(&mut self, depth: usize) {
        self.put(&[IF, LPAREN, IDENTIFIER, GTE, FLOAT, RPAREN]);
        self.block(depth);
        self.put(&[ELSE]);
    }
}
