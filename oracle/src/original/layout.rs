//! Lays the original's tree out in rows: parts before wholes, children in the order of 01.
use super::UNKNOWN;
use crate::kinds;
use crate::model::{Row, CHILDREN, END, NEXT, ROW};
use crate::parser::ast::{
    BlockStatement, CallType, ExpressionKind, ForEachType, IfElseType, LiteralKind, StatementKind,
    TryCatchType,
};

#[derive(Default)]
pub struct Layout {
    pub rows: Vec<Row>,
}

/// The place that a leaf's payload spells.
fn spelt(payload: &str) -> u32 {
    payload.parse().expect("the stand-in lexer spells places")
}

impl Layout {
    fn row(&mut self, kind: u32, mark: u32, place: u32, children: &[u32]) -> u32 {
        let mut row = [0; ROW];
        row[..CHILDREN.start].copy_from_slice(&[kind, mark, place]);
        row[CHILDREN][..children.len()].copy_from_slice(children);
        row[END] = UNKNOWN;
        self.rows.push(row);
        self.rows.len() as u32
    }

    /// A row whose place the tree doesn't hold.
    fn inner(&mut self, kind: u32, mark: u32, children: &[u32]) -> u32 {
        self.row(kind, mark, UNKNOWN, children)
    }

    /// Links the rows of a list and gives the first, or 0.
    fn list<T>(&mut self, items: &[T], mut lay: impl FnMut(&mut Self, &T) -> u32) -> u32 {
        let (mut first, mut last) = (0, 0);
        for item in items {
            let reference = lay(self, item);
            if reference == 0 {
                continue;
            }
            if last == 0 {
                first = reference;
            } else {
                self.rows[last as usize - 1][NEXT] = reference;
            }
            last = reference;
        }
        first
    }

    fn expressions(&mut self, items: &[ExpressionKind]) -> u32 {
        self.list(items, Self::expression)
    }

    fn maybe(&mut self, item: &Option<ExpressionKind>) -> u32 {
        item.as_ref().map_or(0, |expression| self.expression(expression))
    }

    fn maybe_block(&mut self, item: &Option<BlockStatement>) -> u32 {
        item.as_ref().map_or(0, |block| self.block(block, UNKNOWN))
    }

    pub fn expression(&mut self, tree: &ExpressionKind) -> u32 {
        match tree {
            ExpressionKind::Noval => self.inner(kinds::NONE, 0, &[]),
            ExpressionKind::Identifier(id) => self.row(kinds::IDENTIFIER, 0, spelt(&id.name), &[]),
            ExpressionKind::Literal(literal) => self.literal(literal),
            ExpressionKind::Index(index) => {
                self.whole(kinds::INDEX, 0, &[&index.expression_left, &index.index])
            }
            ExpressionKind::Call(call) => self.call(call),
            ExpressionKind::Infix(infix) => {
                let mark = infix.infix.clone() as u32;
                self.whole(kinds::INFIX, mark, &[&infix.expression_left, &infix.expression_right])
            }
            ExpressionKind::Prefix(prefix) => {
                self.whole(kinds::PREFIX, prefix.prefix.clone() as u32, &[&prefix.expression])
            }
            ExpressionKind::Suffix(suffix) => {
                self.whole(kinds::SUFFIX, suffix.suffix.clone() as u32, &[&suffix.expression])
            }
            ExpressionKind::Lambda(lambda) => {
                let parameters = self.expressions(&lambda.parameters);
                let body = self.expression(&lambda.expression);
                self.inner(kinds::LAMBDA, 0, &[parameters, body])
            }
            ExpressionKind::Shell(shell) => {
                self.whole(kinds::SHELL, shell.is_raw as u32, &[&shell.shell])
            }
            ExpressionKind::Attribute(dots) => {
                let parent = self.expression(&dots.parent);
                let lay =
                    |layout: &mut Self, name: &String| layout.row(kinds::NAME, 0, spelt(name), &[]);
                let names = self.list(&dots.child_attrs, lay);
                self.inner(kinds::ATTRIBUTE, 0, &[parent, names])
            }
            ExpressionKind::Boolean(_) => panic!("the original never builds this"),
        }
    }

    /// A row whose children are all expressions.
    fn whole(&mut self, kind: u32, mark: u32, parts: &[&ExpressionKind]) -> u32 {
        let children: Vec<u32> = parts.iter().map(|part| self.expression(part)).collect();
        self.inner(kind, mark, &children)
    }

    fn call(&mut self, call: &CallType) -> u32 {
        let function = self.expression(&call.function);
        let arguments = self.expressions(&call.arguments);
        let thread = if call.is_thread { kinds::THREAD } else { 0 };
        let later = if call.is_async { kinds::ASYNC } else { 0 };
        self.inner(kinds::CALL, thread + later, &[function, arguments])
    }

    fn literal(&mut self, literal: &LiteralKind) -> u32 {
        match literal {
            LiteralKind::Int(place) => self.row(kinds::INT, 0, *place as u32, &[]),
            LiteralKind::Float(place) => self.row(kinds::FLOAT, 0, *place as u32, &[]),
            LiteralKind::Char(place) => self.row(kinds::CHAR, 0, *place as u32, &[]),
            LiteralKind::Str(place) => self.row(kinds::STRING, 0, spelt(place), &[]),
            LiteralKind::Bool(value) => self.inner(kinds::BOOL, *value as u32, &[]),
            LiteralKind::Array(array) => {
                assert_eq!(array.length, array.array_values.len());
                let values = self.expressions(&array.array_values);
                self.inner(kinds::ARRAY, 0, &[values])
            }
            LiteralKind::HashTable(hash) => {
                let lay = |layout: &mut Self, pair: &(ExpressionKind, ExpressionKind)| {
                    let children = [layout.expression(&pair.0), layout.expression(&pair.1)];
                    layout.inner(kinds::PAIR, 0, &children)
                };
                let pairs = self.list(&hash.pairs, lay);
                self.inner(kinds::HASH, 0, &[pairs])
            }
        }
    }

    pub fn block(&mut self, block: &BlockStatement, place: u32) -> u32 {
        let first = self.list(&block.statements, Self::statement);
        self.row(kinds::BLOCK, 0, place, &[first])
    }

    /// A statement's row; the reference 0 for Empty.
    pub fn statement(&mut self, tree: &StatementKind) -> u32 {
        match tree {
            StatementKind::Empty => 0,
            StatementKind::Break => self.inner(kinds::BREAK, 0, &[]),
            StatementKind::Continue => self.inner(kinds::CONTINUE, 0, &[]),
            StatementKind::Var(var) => {
                let value = self.maybe(&var.expression);
                self.row(kinds::VAR, 0, spelt(&var.identifier.name), &[value])
            }
            StatementKind::Const(constant) => {
                let value = self.maybe(&constant.expression);
                self.row(kinds::CONST, 0, spelt(&constant.identifier.name), &[value])
            }
            StatementKind::Return(result) => {
                let value = self.maybe(&result.expression);
                self.inner(kinds::RETURN, 0, &[value])
            }
            StatementKind::Throw(throw) => self.whole(kinds::THROW, 0, &[&throw.expression]),
            StatementKind::Expression(expression) => {
                let inner = self.expression(expression);
                self.inner(kinds::EXPRESSION, 0, &[inner])
            }
            StatementKind::Assert(assert) => {
                self.whole(kinds::ASSERT, 0, &[&assert.target_expr, &assert.fail_expr])
            }
            blocks => self.statement_with_blocks(blocks),
        }
    }

    fn statement_with_blocks(&mut self, tree: &StatementKind) -> u32 {
        match tree {
            StatementKind::TryCatch(parts) => self.try_catch(parts),
            StatementKind::If(parts) => self.if_else(parts),
            StatementKind::ForEach(parts) => self.for_each(parts),
            StatementKind::Function(function) => {
                let parameters = self.expressions(&function.parameters);
                let body = self.block(&function.body, UNKNOWN);
                self.row(kinds::FUNCTION, 0, spelt(&function.name), &[parameters, body])
            }
            StatementKind::For(parts) => {
                let children = [self.expression(&parts.target), self.expression(&parts.iter)];
                let block = self.block(&parts.loop_block, UNKNOWN);
                self.inner(kinds::FOR, 0, &[children[0], children[1], block])
            }
            StatementKind::While(parts) => {
                let target = self.expression(&parts.target_expr);
                let block = self.block(&parts.loop_block, UNKNOWN);
                self.inner(kinds::WHILE, 0, &[target, block])
            }
            _ => panic!("the caller handles the statements without blocks"),
        }
    }

    fn try_catch(&mut self, parts: &TryCatchType) -> u32 {
        let children = [
            self.block(&parts.try_block, UNKNOWN),
            self.expression(&parts.exception_ident),
            self.block(&parts.catch_block, UNKNOWN),
            self.maybe_block(&parts.final_block),
        ];
        self.inner(kinds::TRY, 0, &children)
    }

    fn if_else(&mut self, parts: &IfElseType) -> u32 {
        let children = [
            self.expression(&parts.condition),
            self.block(&parts.main_block, UNKNOWN),
            self.maybe_block(&parts.alternate_block),
        ];
        self.inner(kinds::IF, 0, &children)
    }

    fn for_each(&mut self, parts: &ForEachType) -> u32 {
        let children = [
            self.expression(&parts.iterator_exp),
            self.expression(&parts.index),
            self.expression(&parts.element),
            self.block(&parts.block, UNKNOWN),
        ];
        self.inner(kinds::FOREACH, 0, &children)
    }
}
