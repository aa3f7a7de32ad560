//! The original parser's answer to a case, with its tree laid out in rows.
mod layout;
mod refusals;

use crate::batch::Case;
use crate::lexer::LexerAPI;
use crate::model::{Entry, Row};
use crate::parser::debug::ParserError;
use crate::parser::Parser;
use layout::Layout;
use std::fmt;

/// Stands for a place or an end that the original's tree doesn't hold.
pub const UNKNOWN: u32 = u32::MAX;

/// Rows are as far as the tree tells: no grouped mark, no ends, and places of leaves and names only.
#[derive(Debug, PartialEq)]
pub enum Outcome {
    Accepted { root: u32, place: u32, rows: Vec<Row> },
    Refused { number: u32, place: u32 },
}

impl Outcome {
    /// The four answer words of 01.
    pub fn words(&self) -> [u32; 4] {
        match self {
            Outcome::Accepted { root, place, rows } => [0, *root, rows.len() as u32, *place],
            Outcome::Refused { number, place } => [*number, *place, 0, 0],
        }
    }

    /// The tree's rows; none after a refusal.
    pub fn rows(&self) -> &[Row] {
        match self {
            Outcome::Accepted { rows, .. } => rows,
            Outcome::Refused { .. } => &[],
        }
    }

    /// The root's reference; 0 after a refusal.
    pub fn root(&self) -> u32 {
        match self {
            Outcome::Accepted { root, .. } => *root,
            Outcome::Refused { .. } => 0,
        }
    }
}

impl fmt::Display for Outcome {
    /// As the printing program's first line.
    fn fmt(&self, to: &mut fmt::Formatter) -> fmt::Result {
        match self {
            Outcome::Accepted { root, place, rows } => {
                write!(to, "ok {} {} {}", root, rows.len(), place)
            }
            Outcome::Refused { number, place } => write!(to, "no {} {}", number, place),
        }
    }
}

/// Runs the original, which knows one mode, on a valid array; `case.start` is below its length.
pub fn run(case: &Case) -> Outcome {
    let mut parser = Parser::new_from_lexer(LexerAPI::new(&case.tokens, case.first_place()));
    let mut layout = Layout::default();
    let root = match case.entry {
        Entry::Expression => parser.oracle_expression().map(|tree| layout.expression(&tree)),
        Entry::Statement => parser.oracle_statement().map(|tree| layout.statement(&tree)),
        // The original goes on behind an error; 01 stops, so the first one counts.
        Entry::Script => match parser.parse() {
            Ok(program) => Ok(layout.block(&program, 0)),
            Err(errors) => Err(errors[0].clone()),
        },
    };
    match root {
        Ok(root) => {
            let place = parser.lexer.get_current_token().pos as u32;
            Outcome::Accepted { root, place, rows: layout.rows }
        }
        Err(error) => refusal(&error),
    }
}

fn refusal(error: &ParserError) -> Outcome {
    Outcome::Refused { number: refusals::number(&error.message), place: error.pos as u32 }
}
