//! Shigthapul, a proved reader for scripts in the Boson language, for Rust.
//!
//! It takes a script's tokens and answers its tree, or refuses it with a number and a place. Each
//! token is a word ([`Token`]), with EOF last and nowhere else. The tree is laid out in a pool of
//! words that the caller lends, [`ROW_WORDS`] to a row; reading allocates nothing. After a refusal every
//! word of the pool is zero. No input makes these functions panic. A [`Mode`] says by which rules is
//! read: the original's, or strict ones. [`Node::place`] is that of the token which a node stands for,
//! and [`Node::end`] says where its piece of the script ends. A tree, also one that was changed, goes
//! back to tokens by [`Tree::to_tokens`], [`check()`] and [`write()`], and becomes a JSON text by
//! [`Tree::to_json`] and [`json()`]. A [`TokenFile`] has the tokens with their names and texts.
//!
//! ```
//! use shigthapul::{whole_script, Infix, Kind, Mode, Symbol, Token, TOKEN_WORDS};
//!
//! # fn main() -> Result<(), shigthapul::Refusal> {
//! // a + b * c
//! let (plus, times) = (Token::Operator(Symbol::SPlus), Token::Operator(Symbol::SMul));
//! let name = Token::Identifier;
//! let tokens = [name, plus, name, times, name, Token::EOF].map(Token::word);
//!
//! let mut pool = vec![0; TOKEN_WORDS * tokens.len()];
//! let tree = whole_script(&tokens, &mut pool, Mode::Strict)?;
//!
//! let product = tree.of_kind(Kind::Infix).next().unwrap();
//! assert_eq!(product.infix(), Some(Infix::Mul));
//! assert_eq!(product.place(), 3);
//! assert_eq!(tree.root().unwrap().kind(), Kind::Block);
//! assert_eq!(tree.len(), 7);
//! # Ok(())
//! # }
//! ```
//!
//! The proved code is a static library for x86-64, `libexports.a`; `build.rs` links it from the
//! folder that `SHIGTHAPUL_LIB_DIR` names. What is proved is in the repository's `docs/CLAIMS.md`.
//! This crate itself is not proved: it is tested.
#![deny(missing_docs, unsafe_code)]

#[macro_use]
mod table;

mod answer;
mod entries;
mod files;
mod json;
mod kind;
mod mode;
pub mod raw;
mod refusal;
mod sizes;
mod text;
mod token;
mod tokens;
mod tree;
mod unicode;
mod walk;
mod writing;

pub use entries::{one_expression, one_statement, whole_script};
pub use files::read_file;
pub use json::{json, json_small};
pub use kind::{Infix, Kind, Prefix, Suffix};
pub use mode::Mode;
pub use refusal::{Reason, Refusal};
pub use sizes::{MOST_ROWS, ROW_TOKENS, ROW_WORDS, SMALL_ROWS, TOKEN_WORDS};
pub use sizes::{PAYLOAD_BYTES, ROW_BYTES};
pub use text::{fold, text};
pub use token::{Keyword, Symbol, Token};
pub use tokens::{script_text, Tokens};
pub use tree::{Node, Row, Tree, GROUPED};
pub use unicode::{fold_str, Field, Fields, TokenFile};
pub use walk::{List, Walk};
pub use writing::{check, check_small, write, write_small, Checked};

/// The page on both bindings, whose Rust example is run as a test.
#[cfg(doctest)]
#[doc = include_str!("../../README.md")]
pub struct Page;
