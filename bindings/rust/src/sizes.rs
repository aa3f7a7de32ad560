//! The sizes of rows and pools; the bench has them from here too.

/// How many words of the pool a row takes: kind, mark, place, four children, next and end.
pub const ROW_WORDS: usize = 9;

/// The most rows of a pool; words behind them are only zeroed.
pub const MOST_ROWS: usize = 65_535;

/// How many rows of a pool the functions for threads with little stack look at.
pub const SMALL_ROWS: usize = 4_096;

/// So many words of the pool for each token, EOF counted, are enough for any script: no token takes
/// more than two rows.
pub const TOKEN_WORDS: usize = 2 * ROW_WORDS;

/// So many tokens for each row of a tree, EOF counted, are enough to write it: no row is written as more.
pub const ROW_TOKENS: usize = 6;

/// No row takes more bytes in a JSON text, beside its payload. So many bytes for each row, and
/// [`PAYLOAD_BYTES`] for each byte of the token file, are enough for the text of a tree in which no two rows
/// name the same field, as in every tree that was read.
pub const ROW_BYTES: usize = 71;

/// No payload takes more bytes in a JSON text for each byte of its field.
pub const PAYLOAD_BYTES: usize = 6;
