//! Nesting around the limit: each form that opens a reader inside a reader, repeated.
use super::rng::Rng;
use crate::words::*;

/// A form that wraps something: the words before it and the words behind it.
type Form = (&'static [u16], &'static [u16]);

const A: u16 = IDENTIFIER;

/// Forms that wrap an expression and are one.
const EXPRESSIONS: [Form; 20] = [
    (&[EXCL], &[]),
    (&[NEG], &[]),
    (&[INCR], &[]),
    (&[DECR], &[]),
    (&[DOLLAR], &[]),
    (&[DOLLAR, DOT], &[]),
    (&[LPAREN], &[RPAREN]),
    (&[LBOX], &[RBOX]),
    (&[LBOX, A, COMMA], &[RBOX]),
    (&[LBRACE, A, COLON], &[RBRACE]),
    (&[LBRACE], &[COLON, A, RBRACE]),
    (&[A, LPAREN], &[RPAREN]),
    (&[A, LPAREN, A, COMMA], &[RPAREN]),
    (&[A, LBOX], &[RBOX]),
    (&[LAMBDA], &[IMPL, A]),
    (&[LAMBDA, A, IMPL], &[]),
    (&[A, PLUS], &[]),
    (&[A, EQ, A, LOR, A, PLUS], &[]),
    (&[THREAD], &[LPAREN, RPAREN]),
    (&[ASYNC], &[]),
];

/// Forms that wrap statements and are a statement.
const STATEMENTS: [Form; 10] = [
    (&[IF, LPAREN, A, RPAREN, LBRACE], &[RBRACE]),
    (&[IF, LPAREN, A, RPAREN, LBRACE, RBRACE, ELSE, LBRACE], &[RBRACE]),
    (&[WHILE, LPAREN, A, RPAREN, LBRACE], &[RBRACE]),
    (&[FOR, A, IN, A, IMPL, LBRACE], &[RBRACE]),
    (&[FOREACH, A, COMMA, A, COMMA, A, IMPL, LBRACE], &[RBRACE]),
    (&[FUNC, A, LPAREN, RPAREN, LBRACE], &[RBRACE]),
    (&[TRY, LBRACE], &[RBRACE, CATCH, A, LBRACE, RBRACE]),
    (&[TRY, LBRACE, RBRACE, CATCH, A, LBRACE], &[RBRACE]),
    (&[TRY, LBRACE, RBRACE, CATCH, A, LBRACE, RBRACE, FINALLY, LBRACE], &[RBRACE]),
    (&[WHILE, LPAREN, A, RPAREN, LBRACE, A, SEMICOLON], &[SEMICOLON, A, RBRACE]),
];

/// Forms that wrap an expression and are a statement.
const HEADS: [Form; 16] = [
    (&[], &[]),
    (&[VAR, A, EQ], &[]),
    (&[CONST, A, EQ], &[]),
    (&[RETURN], &[]),
    (&[THROW], &[]),
    (&[ASSERT], &[COMMA, A]),
    (&[ASSERT, A, COMMA], &[]),
    (&[IF, LPAREN], &[RPAREN, LBRACE, RBRACE]),
    (&[WHILE, LPAREN], &[RPAREN, LBRACE, RBRACE]),
    (&[FOR], &[IN, A, IMPL, LBRACE, RBRACE]),
    (&[FOR, A, IN], &[IMPL, LBRACE, RBRACE]),
    (&[FOREACH], &[COMMA, A, COMMA, A, IMPL, LBRACE, RBRACE]),
    (&[FOREACH, A, COMMA], &[COMMA, A, IMPL, LBRACE, RBRACE]),
    (&[FOREACH, A, COMMA, A, COMMA], &[IMPL, LBRACE, RBRACE]),
    (&[FUNC, A, LPAREN], &[RPAREN, LBRACE, RBRACE]),
    (&[TRY, LBRACE, RBRACE, CATCH], &[LBRACE, RBRACE]),
];

/// What stands in the innermost place.
const CORES: [&[u16]; 6] =
    [&[A], &[A, DOT, A], &[A, LPAREN, RPAREN], &[A, SEMICOLON], &[EMPTY], &[BREAK, SEMICOLON]];

/// A nest of about the limit's depth; statements only where the entry takes them.
pub fn nest(rng: &mut Rng, with_statements: bool) -> Vec<u16> {
    let depth = 56 + rng.below(14);
    let outer = if with_statements { pick_outer(rng, depth) } else { 0 };
    let mut forms = pick_forms(rng, &STATEMENTS, outer);
    if outer < depth {
        if with_statements {
            forms.push(rng.pick(&HEADS));
        }
        forms.extend(pick_forms(rng, &EXPRESSIONS, depth - outer));
    }
    wrap(&forms, rng.pick(&CORES))
}

/// How many of the levels are statements: none, all, or some.
fn pick_outer(rng: &mut Rng, depth: usize) -> usize {
    match rng.below(4) {
        0 => 0,
        1 => depth,
        _ => rng.below(depth),
    }
}

/// `count` forms: the same one again and again, or each picked anew.
fn pick_forms(rng: &mut Rng, table: &[Form], count: usize) -> Vec<Form> {
    let same = rng.pick(table);
    let mixed = rng.chance(1, 2);
    (0..count).map(|_| if mixed { rng.pick(table) } else { same }).collect()
}

fn wrap(forms: &[Form], core: &[u16]) -> Vec<u16> {
    let before = forms.iter().flat_map(|form| form.0);
    let behind = forms.iter().rev().flat_map(|form| form.1);
    before.chain(core).chain(behind).copied().collect()
}
