//! The statement and block readers of the model, named after those of 000, and the whole script.
use super::expressions::ZERO;
use super::reader::{List, Read, Reader};
use crate::kinds;
use crate::words::*;

impl Reader<'_> {
    /// The whole script of 01: its root is a block at place 0.
    pub fn parse(&mut self) -> Read<u32> {
        let mut statements = List::default();
        while self.current() != EOF {
            self.parse_one_of(&mut statements)?;
        }
        self.build(kinds::BLOCK, 0, 0, &[statements.first])
    }

    /// One turn of a script's or block's loop: skips a semicolon, or keeps a statement.
    fn parse_one_of(&mut self, statements: &mut List) -> Read<()> {
        if self.current() != SEMICOLON {
            self.parse_kept(statements)?;
        }
        self.iterate();
        Ok(())
    }

    /// Reads a statement and keeps it unless it is Empty.
    fn parse_kept(&mut self, statements: &mut List) -> Read<()> {
        let statement = self.parse_statement()?;
        if statement != 0 {
            self.push(statements, statement);
        }
        Ok(())
    }

    fn parse_block_statement(&mut self) -> Read<u32> {
        self.iterate();
        let place = self.place();
        let mut statements = List::default();
        if self.next() == RBRACE {
            self.iterate();
            return self.build(kinds::BLOCK, 0, place, &[]);
        }
        self.iterate();
        self.parse_kept(&mut statements)?;
        self.iterate();
        while self.current() != RBRACE {
            self.parse_one_of(&mut statements)?;
        }
        self.build(kinds::BLOCK, 0, place, &[statements.first])
    }

    /// Reads a block whose opener must be a brace.
    fn parse_braced_block(&mut self, number: u32) -> Read<u32> {
        self.want_next(LBRACE, number)?;
        self.parse_block_statement()
    }

    /// Reads a block whose opener is whatever token comes next; in strict mode it must be a brace.
    fn parse_any_block(&mut self) -> Read<u32> {
        self.want_sign(LBRACE)?;
        self.parse_block_statement()
    }

    /// One statement; an Empty token is the reference 0.
    pub fn parse_statement(&mut self) -> Read<u32> {
        self.nested(|reader| match reader.current() {
            EMPTY => Ok(0),
            BREAK => reader.parse_lone_word(kinds::BREAK, 28),
            CONTINUE => reader.parse_lone_word(kinds::CONTINUE, 29),
            RETURN => reader.parse_return_statement(),
            VAR | CONST | IF | ASSERT | WHILE | FUNC | FOR | THROW | TRY | FOREACH => {
                reader.parse_headed_statement()
            }
            _ => reader.parse_expression_statement(),
        })
    }

    fn parse_lone_word(&mut self, kind: u32, number: u32) -> Read<u32> {
        let place = self.place();
        if !self.is_terminated() {
            return self.refuse(number);
        }
        self.build(kind, 0, place, &[])
    }

    /// The statements that refuse a semicolon right behind their keyword.
    fn parse_headed_statement(&mut self) -> Read<u32> {
        let keyword = self.current();
        if self.is_terminated() {
            return self.refuse(10);
        }
        match keyword {
            VAR => self.parse_var_or_const(false),
            CONST => self.parse_var_or_const(true),
            IF => self.parse_if_statement(),
            ASSERT => self.parse_assert_statement(),
            WHILE => self.parse_while_statement(),
            FUNC => self.parse_function_statement(),
            FOR => self.parse_for_loop_statement(),
            THROW => self.parse_throw_statement(),
            TRY => self.parse_try_statement(),
            _ => self.parse_for_each_statement(),
        }
    }

    fn parse_var_or_const(&mut self, is_const: bool) -> Read<u32> {
        self.iterate();
        let name = self.get_identifier()?;
        if self.is_terminated() {
            if is_const {
                return self.refuse(19);
            }
            return self.build(kinds::VAR, 0, name, &[]);
        }
        self.iterate();
        if self.current() != EQ {
            return self.refuse(20);
        }
        self.iterate();
        let value = self.parse_expression(ZERO)?;
        let kind = if is_const { kinds::CONST } else { kinds::VAR };
        self.build(kind, 0, name, &[value])
    }

    fn parse_return_statement(&mut self) -> Read<u32> {
        let place = self.place();
        if self.is_terminated() {
            return self.build(kinds::RETURN, 0, place, &[]);
        }
        self.iterate();
        let value = self.parse_expression(ZERO)?;
        self.build(kinds::RETURN, 0, place, &[value])
    }

    fn parse_throw_statement(&mut self) -> Read<u32> {
        let place = self.place();
        self.iterate();
        let value = self.parse_expression(ZERO)?;
        self.build(kinds::THROW, 0, place, &[value])
    }

    fn parse_expression_statement(&mut self) -> Read<u32> {
        let place = self.place();
        let expression = self.parse_expression(ZERO)?;
        self.build(kinds::EXPRESSION, 0, place, &[expression])
    }

    fn parse_assert_statement(&mut self) -> Read<u32> {
        let place = self.place();
        self.iterate();
        let target = self.parse_expression(ZERO)?;
        if self.is_terminated() {
            return self.refuse(15);
        }
        let fail = self.parse_behind(COMMA, 16)?;
        self.build(kinds::ASSERT, 0, place, &[target, fail])
    }

    /// Wants `word` next and reads the expression behind it.
    fn parse_behind(&mut self, word: u16, number: u32) -> Read<u32> {
        self.want_next(word, number)?;
        self.iterate();
        self.iterate();
        self.parse_expression(ZERO)
    }

    fn parse_function_statement(&mut self) -> Read<u32> {
        self.iterate();
        let name = self.place();
        if self.current() != IDENTIFIER {
            return self.refuse(17);
        }
        self.want_next(LPAREN, 10)?;
        self.iterate();
        let parameters = self.parse_list_expr()?;
        self.want_next(RPAREN, 10)?;
        self.iterate();
        let body = self.parse_braced_block(10)?;
        self.build(kinds::FUNCTION, 0, name, &[parameters, body])
    }

    fn parse_if_statement(&mut self) -> Read<u32> {
        let place = self.place();
        self.iterate();
        if self.current() != LPAREN {
            return self.refuse(10);
        }
        self.iterate();
        let condition = self.parse_expression(ZERO)?;
        self.want_next(RPAREN, 11)?;
        self.iterate();
        let main = self.parse_braced_block(18)?;
        let mut alternate = 0;
        if self.next() == ELSE {
            self.iterate();
            alternate = self.parse_braced_block(10)?;
        }
        self.build(kinds::IF, 0, place, &[condition, main, alternate])
    }

    fn parse_while_statement(&mut self) -> Read<u32> {
        let place = self.place();
        let target = self.parse_behind(LPAREN, 10)?;
        self.want_next(RPAREN, 10)?;
        self.iterate();
        let block = self.parse_any_block()?;
        self.build(kinds::WHILE, 0, place, &[target, block])
    }

    fn parse_for_loop_statement(&mut self) -> Read<u32> {
        let place = self.place();
        self.iterate();
        let target = self.parse_expression(ZERO)?;
        let iterator = self.parse_behind(IN, 10)?;
        self.want_next(IMPL, 10)?;
        self.iterate();
        let block = self.parse_braced_block(10)?;
        self.build(kinds::FOR, 0, place, &[target, iterator, block])
    }

    fn parse_for_each_statement(&mut self) -> Read<u32> {
        let place = self.place();
        self.iterate();
        let iterator = self.parse_expression(ZERO)?;
        let index = self.parse_behind(COMMA, 10)?;
        let element = self.parse_behind(COMMA, 10)?;
        self.want_next(IMPL, 10)?;
        self.iterate();
        let block = self.parse_any_block()?;
        self.build(kinds::FOREACH, 0, place, &[iterator, index, element, block])
    }

    fn parse_try_statement(&mut self) -> Read<u32> {
        let place = self.place();
        let block = self.parse_braced_block(10)?;
        let exception = self.parse_behind(CATCH, 27)?;
        let catch = self.parse_braced_block(10)?;
        let mut last = 0;
        if self.next() == FINALLY {
            self.iterate();
            last = self.parse_any_block()?;
        }
        self.build(kinds::TRY, 0, place, &[block, exception, catch, last])
    }
}
