//! The expression readers of the model, named after those of 000.
use super::reader::{List, Read, Reader};
use crate::kinds;
use crate::words::*;

pub const ZERO: u32 = 0;

/// The order of a token by 001; only operators have one above Zero.
fn order(word: u16) -> u32 {
    match word {
        EQ | OR_EQ | AND_EQ | PLUS_EQ | MINUS_EQ | MUL_EQ | DIV_EQ | MOD_EQ => 1,
        LOR => 2,
        LAND => 3,
        OR => 4,
        AND => 5,
        EEQ | NE => 6,
        GT | LT | LTE | GTE => 7,
        PLUS | MINUS => 8,
        MUL | DIV | MOD => 9,
        NEG | EXCL => 10,
        INCR | DECR => 11,
        LPAREN => 12,
        LBOX => 13,
        DOT => 14,
        _ => ZERO,
    }
}

/// The index of a word in a table of operators, which is its mark.
fn mark_in(table: &[u16], word: u16) -> Option<u32> {
    table.iter().position(|&entry| entry == word).map(|mark| mark as u32)
}

impl Reader<'_> {
    pub fn parse_expression(&mut self, pre: u32) -> Read<u32> {
        self.nested(|reader| {
            let prefix = reader.parse_prefix_part()?;
            if reader.is_terminated() {
                return Ok(prefix);
            }
            reader.parse_rest(prefix, pre)
        })
    }

    /// The loop of `parse_expression` behind its prefix part.
    fn parse_rest(&mut self, prefix: u32, pre: u32) -> Read<u32> {
        let mut left = prefix;
        while pre < order(self.next()) {
            let next = self.next();
            if let Some(mark) = mark_in(&INFIXES, next) {
                self.iterate();
                left = self.parse_infix_expression(left, mark)?;
            } else if let Some(mark) = mark_in(&SUFFIXES, next) {
                self.iterate();
                left = self.build(kinds::SUFFIX, mark, self.place(), &[left])?;
            } else if next == LPAREN {
                self.iterate();
                left = self.parse_call_expression(left)?;
            } else if next == LBOX {
                self.iterate();
                left = self.parse_index_expression(left)?;
            } else {
                break;
            }
        }
        Ok(left)
    }

    /// The head of `parse_expression`: what the current token starts.
    fn parse_prefix_part(&mut self) -> Read<u32> {
        match self.current() {
            IDENTIFIER => self.parse_dot_expression(),
            INTEGER => self.parse_leaf(kinds::INT, 0),
            FLOAT => self.parse_leaf(kinds::FLOAT, 0),
            CHAR => self.parse_leaf(kinds::CHAR, 0),
            STR => self.parse_leaf(kinds::STRING, 0),
            TRUE => self.parse_leaf(kinds::BOOL, 1),
            FALSE => self.parse_leaf(kinds::BOOL, 0),
            NONE => self.parse_leaf(kinds::NONE, 0),
            LAMBDA => self.parse_lambda_exp(),
            THREAD => self.parse_marked_call(kinds::THREAD),
            ASYNC => self.parse_marked_call(kinds::ASYNC),
            LBOX => self.parse_array_expression(),
            LBRACE => self.parse_hash_literal(),
            INCR | DECR | NEG | EXCL => self.parse_prefix_expression(),
            LPAREN => self.parse_sub_expression(),
            DOLLAR => self.parse_shell_expression(),
            other => self.refuse(match class(other) {
                KEYWORD => 13,
                OPERATOR => 12,
                _ => 11,
            }),
        }
    }

    fn parse_leaf(&mut self, kind: u32, mark: u32) -> Read<u32> {
        self.build(kind, mark, self.place(), &[])
    }

    fn parse_dot_expression(&mut self) -> Read<u32> {
        let place = self.place();
        let parent = self.parse_leaf(kinds::IDENTIFIER, 0)?;
        if self.next() != DOT {
            return Ok(parent);
        }
        let mut names = List::default();
        while self.next() == DOT {
            self.iterate();
            self.iterate();
            self.get_identifier()?;
            let name = self.parse_leaf(kinds::NAME, 0)?;
            self.push(&mut names, name);
        }
        self.build(kinds::ATTRIBUTE, 0, place, &[parent, names.first])
    }

    /// The place of the current token, which must be an identifier.
    pub fn get_identifier(&mut self) -> Read<u32> {
        if self.current() == IDENTIFIER {
            Ok(self.place())
        } else {
            self.refuse(14)
        }
    }

    pub fn parse_list_expr(&mut self) -> Read<u32> {
        let mut list = List::default();
        if self.next() == RPAREN {
            return Ok(list.first);
        }
        self.iterate();
        let first = self.parse_expression(ZERO)?;
        self.push(&mut list, first);
        while self.next() == COMMA {
            self.iterate();
            self.iterate();
            let more = self.parse_expression(ZERO)?;
            self.push(&mut list, more);
        }
        Ok(list.first)
    }

    fn parse_pair(&mut self) -> Read<u32> {
        let key = self.parse_expression(ZERO)?;
        self.want_next(COLON, 21)?;
        self.iterate();
        let colon = self.place();
        self.iterate();
        let value = self.parse_expression(ZERO)?;
        self.build(kinds::PAIR, 0, colon, &[key, value])
    }

    fn parse_hash_literal(&mut self) -> Read<u32> {
        let place = self.place();
        if self.next() == RBRACE {
            self.iterate();
            return self.build(kinds::HASH, 0, place, &[]);
        }
        self.iterate();
        let mut pairs = List::default();
        let first = self.parse_pair()?;
        self.push(&mut pairs, first);
        while self.next() == COMMA {
            self.iterate();
            self.iterate();
            let more = self.parse_pair()?;
            self.push(&mut pairs, more);
        }
        self.want_next(RBRACE, 24)?;
        self.iterate();
        self.build(kinds::HASH, 0, place, &[pairs.first])
    }

    fn parse_array_expression(&mut self) -> Read<u32> {
        let place = self.place();
        if self.next() == RBOX {
            self.iterate();
            return self.build(kinds::ARRAY, 0, place, &[]);
        }
        let values = self.parse_list_expr()?;
        self.want_next(RBOX, 25)?;
        self.iterate();
        self.build(kinds::ARRAY, 0, place, &[values])
    }

    fn parse_lambda_exp(&mut self) -> Read<u32> {
        let place = self.place();
        match self.next() {
            SEMICOLON => return self.refuse(10),
            IMPL => return self.refuse(22),
            _ => (),
        }
        let parameters = self.parse_list_expr()?;
        self.want_next(IMPL, 23)?;
        self.iterate();
        self.iterate();
        let body = self.parse_expression(ZERO)?;
        self.build(kinds::LAMBDA, 0, place, &[parameters, body])
    }

    /// `parse_thread_exp` and `parse_async_expr`, which differ in the flag they set.
    fn parse_marked_call(&mut self, flag: u32) -> Read<u32> {
        self.iterate();
        let call = self.parse_expression(ZERO)?;
        if self.kind(call) != kinds::CALL {
            return self.refuse(26);
        }
        self.mark(call, flag);
        Ok(call)
    }

    fn parse_shell_expression(&mut self) -> Read<u32> {
        let place = self.place();
        self.iterate();
        let raw = self.current() == DOT;
        if raw {
            self.iterate();
        }
        let shell = self.parse_expression(ZERO)?;
        self.build(kinds::SHELL, raw as u32, place, &[shell])
    }

    fn parse_prefix_expression(&mut self) -> Read<u32> {
        let place = self.place();
        let mark = mark_in(&PREFIXES, self.current()).expect("the caller saw a prefix operator");
        self.iterate();
        let right = self.parse_expression(ZERO)?;
        self.build(kinds::PREFIX, mark, place, &[right])
    }

    fn parse_infix_expression(&mut self, left: u32, mark: u32) -> Read<u32> {
        let place = self.place();
        let own = order(self.current());
        self.iterate();
        let right = self.parse_expression(own)?;
        self.build(kinds::INFIX, mark, place, &[left, right])
    }

    fn parse_index_expression(&mut self, left: u32) -> Read<u32> {
        let place = self.place();
        self.iterate();
        let index = self.parse_expression(ZERO)?;
        self.want_next(RBOX, 10)?;
        self.iterate();
        self.build(kinds::INDEX, 0, place, &[left, index])
    }

    /// The closer is whatever token comes next, if there are arguments; in strict mode it must fit.
    fn parse_call_expression(&mut self, function: u32) -> Read<u32> {
        let place = self.place();
        let arguments = self.parse_list_expr()?;
        self.want_sign(RPAREN)?;
        self.iterate();
        self.build(kinds::CALL, 0, place, &[function, arguments])
    }

    fn parse_sub_expression(&mut self) -> Read<u32> {
        self.iterate();
        if self.next() == RPAREN {
            return self.refuse(10);
        }
        let inner = self.parse_expression(ZERO)?;
        self.want_next(RPAREN, 10)?;
        self.iterate();
        self.mark(inner, kinds::GROUPED);
        Ok(inner)
    }
}
