//! Random scripts of every form the original accepts.
use super::rng::Rng;
use crate::model::Entry;
use crate::words::*;

/// Writes one script, statement or expression; `depth` bounds how far forms nest.
pub struct Writer<'a> {
    rng: &'a mut Rng,
    out: Vec<u16>,
}

/// The words of a random text for an entry, without EOF.
pub fn text(rng: &mut Rng, entry: Entry) -> Vec<u16> {
    let mut writer = Writer { rng, out: vec![] };
    let depth = 1 + writer.rng.below(4);
    match entry {
        Entry::Expression => writer.expression(depth),
        Entry::Statement => writer.statement(depth),
        Entry::Script => writer.statements(depth),
    }
    writer.out
}

impl Writer<'_> {
    fn put(&mut self, words: &[u16]) {
        self.out.extend_from_slice(words);
    }

    /// Now and then writes `word`.
    fn maybe(&mut self, word: u16, part: usize, whole: usize) {
        if self.rng.chance(part, whole) {
            self.put(&[word]);
        }
    }

    fn statements(&mut self, depth: usize) {
        for _ in 0..self.rng.below(5) {
            self.maybe(EMPTY, 1, 12);
            self.statement(depth);
            self.maybe(SEMICOLON, 4, 5);
            self.maybe(SEMICOLON, 1, 10);
        }
    }

    fn block(&mut self, depth: usize) {
        self.put(&[LBRACE]);
        self.statements(depth);
        self.put(&[RBRACE]);
    }

    fn statement(&mut self, depth: usize) {
        let choices = if depth == 0 { 9 } else { 16 };
        match self.rng.below(choices) {
            0 => self.put(&[BREAK, SEMICOLON]),
            1 => self.put(&[CONTINUE, SEMICOLON]),
            2 => self.put(&[VAR, IDENTIFIER, SEMICOLON]),
            3 => self.behind(&[VAR, IDENTIFIER, EQ], depth),
            4 => self.behind(&[CONST, IDENTIFIER, EQ], depth),
            5 => self.put(&[RETURN, SEMICOLON]),
            6 => self.behind(&[RETURN], depth),
            7 => self.behind(&[THROW], depth),
            8 => self.expression(depth),
            9 => self.assert(depth),
            10 => self.if_else(depth - 1),
            11 => self.while_loop(depth - 1),
            12 => self.for_loop(depth - 1),
            13 => self.for_each(depth - 1),
            14 => self.function(depth - 1),
            _ => self.try_catch(depth - 1),
        }
    }

    fn behind(&mut self, words: &[u16], depth: usize) {
        self.put(words);
        self.expression(depth);
    }

    fn assert(&mut self, depth: usize) {
        self.behind(&[ASSERT], depth);
        self.behind(&[COMMA], depth);
    }

    fn if_else(&mut self, depth: usize) {
        self.behind(&[IF, LPAREN], depth);
        self.put(&[RPAREN]);
        self.block(depth);
        if self.rng.chance(1, 2) {
            self.put(&[ELSE]);
            self.block(depth);
        }
    }

    fn while_loop(&mut self, depth: usize) {
        self.behind(&[WHILE, LPAREN], depth);
        self.put(&[RPAREN]);
        self.block(depth);
    }

    fn for_loop(&mut self, depth: usize) {
        self.behind(&[FOR], depth);
        self.behind(&[IN], depth);
        self.put(&[IMPL]);
        self.block(depth);
    }

    fn for_each(&mut self, depth: usize) {
        self.behind(&[FOREACH], depth);
        self.behind(&[COMMA], depth);
        self.behind(&[COMMA], depth);
        self.put(&[IMPL]);
        self.block(depth);
    }

    fn function(&mut self, depth: usize) {
        self.put(&[FUNC, IDENTIFIER, LPAREN]);
        self.list(depth, 0);
        self.put(&[RPAREN]);
        self.block(depth);
    }

    fn try_catch(&mut self, depth: usize) {
        self.put(&[TRY]);
        self.block(depth);
        self.behind(&[CATCH], depth);
        self.block(depth);
        if self.rng.chance(1, 2) {
            self.put(&[FINALLY]);
            self.block(depth);
        }
    }

    /// `least` to three expressions with commas between.
    fn list(&mut self, depth: usize, least: usize) {
        let count = least + self.rng.below(4 - least);
        for index in 0..count {
            if index > 0 {
                self.put(&[COMMA]);
            }
            self.expression(depth);
        }
    }

    /// A chain whose last operand may be a form that reads on to the end.
    fn expression(&mut self, depth: usize) {
        let links = if self.rng.chance(1, 2) { 0 } else { self.rng.below(4) };
        for _ in 0..links {
            self.operand(depth);
            let infix = self.rng.pick(&INFIXES);
            self.put(&[infix]);
        }
        if depth > 0 && self.rng.chance(1, 5) {
            self.reading_on(depth - 1);
        } else {
            self.operand(depth);
        }
    }

    /// The forms whose last part is an expression at order Zero.
    fn reading_on(&mut self, depth: usize) {
        match self.rng.below(5) {
            0 => {
                let prefix = self.rng.pick(&PREFIXES);
                self.behind(&[prefix], depth);
            }
            1 => self.behind(&[DOLLAR], depth),
            2 => self.behind(&[DOLLAR, DOT], depth),
            3 => {
                self.put(&[LAMBDA]);
                self.list(depth, 1);
                self.behind(&[IMPL], depth);
            }
            _ => self.marked_call(depth),
        }
    }

    fn marked_call(&mut self, depth: usize) {
        for _ in 0..1 + self.rng.below(2) {
            let keyword = self.rng.pick(&[THREAD, ASYNC]);
            self.put(&[keyword]);
        }
        self.operand(depth);
        self.call(depth);
    }

    fn call(&mut self, depth: usize) {
        self.put(&[LPAREN]);
        self.list(depth, 0);
        self.put(&[RPAREN]);
    }

    /// A value or bracketed form, with calls, indexes and suffixes behind it.
    fn operand(&mut self, depth: usize) {
        let choices = if depth == 0 { 4 } else { 8 };
        match self.rng.below(choices) {
            0 | 1 => self.put(&[IDENTIFIER]),
            2 => {
                let value = self.rng.pick(&VALUES);
                self.put(&[value]);
            }
            3 => self.dotted(),
            4 => self.group(depth - 1),
            5 => self.array(depth - 1),
            6 => self.hash(depth - 1),
            _ => self.operand(depth - 1),
        }
        while depth > 0 && self.rng.chance(1, 4) {
            self.trailer(depth - 1);
        }
    }

    fn trailer(&mut self, depth: usize) {
        match self.rng.below(4) {
            0 | 1 => self.call(depth),
            2 => {
                self.behind(&[LBOX], depth);
                self.put(&[RBOX]);
            }
            _ => {
                let suffix = self.rng.pick(&SUFFIXES);
                self.put(&[suffix]);
            }
        }
    }

    fn dotted(&mut self) {
        self.put(&[IDENTIFIER]);
        for _ in 0..1 + self.rng.below(3) {
            self.put(&[DOT, IDENTIFIER]);
        }
    }

    /// A bracketed expression; one token alone needs a semicolon to be accepted.
    fn group(&mut self, depth: usize) {
        self.put(&[LPAREN]);
        let before = self.out.len();
        self.expression(depth);
        if self.out.len() == before + 1 {
            self.put(&[SEMICOLON]);
        }
        self.put(&[RPAREN]);
    }

    fn array(&mut self, depth: usize) {
        self.put(&[LBOX]);
        self.list(depth, 0);
        self.put(&[RBOX]);
    }

    fn hash(&mut self, depth: usize) {
        self.put(&[LBRACE]);
        for index in 0..self.rng.below(3) {
            if index > 0 {
                self.put(&[COMMA]);
            }
            self.expression(depth);
            self.behind(&[COLON], depth);
        }
        self.put(&[RBRACE]);
    }
}
