//! Trees as JSON texts.
//!
//! # Why the unsafe code is sound
//!
//! A `str` must be well-formed UTF-8. It is proved of the library (`docs/CLAIMS.md`) that where it accepts,
//! the text of the tree, as it is defined, stands in front of the buffer, as long as the answer says
//! (`Tells`), and that it is well-formed UTF-8 (`WritesJson`).
//!
//! What is left to see to here is that the bytes are those: the `str` is made right behind the call, of
//! so many bytes, and borrows the buffer.
//!
//! What is trusted: that the library is the one that this repository builds.
#![allow(unsafe_code)]
use crate::answer::counted;
use crate::{raw, Reason, Refusal, MOST_ROWS, PAYLOAD_BYTES, ROW_BYTES, ROW_WORDS};
use std::str::from_utf8_unchecked;

/// The most bytes of a token file.
const MOST_BYTES: usize = 60_000;

/// Checks a tree as [`check`](crate::check()) does, and writes it as one JSON text (RFC 8259) into the
/// front of a buffer; hands back the text.
///
/// Each row is an object. Its members are `kind`, by the name that [`Kind`](crate::Kind) has; `mark`;
/// `place`; `payload` for some kinds, which is the field of `file` that has the place as its number; and
/// `c0` to `c3`, as many as the kind has children. One child is an object, or `null` where there is none;
/// a list is an array. Ends are not written. The guide, `docs/GUIDE.md`, says more.
///
/// | Kinds | Field | `payload` |
/// |---|---|---|
/// | identifier, name, var, const, function | Identifier | a string |
/// | int | Integer | a number of up to 64 bits, signed |
/// | float | Float | a string of its 16 hexadecimal digits |
/// | char | Char | a string of that character |
/// | string | Str | a string: the text after the fold |
///
/// `file` is a token file, of which only the fields must be good: it needn't be a script. The bytes behind
/// the text become zero; after a refusal all of them are. The reasons, the first that fits:
///
/// - [`Reason::TooLong`], [`Reason::BadField`] or [`Reason::NotUnicode`] as [`read_file`](crate::read_file)
///   gives them for the file;
/// - [`Reason::NoTree`] as by the check; or at a row whose place is no field, or one of another class than
///   its payload needs. The lowest bad row counts, whatever is wrong with it;
/// - [`Reason::DeepTree`] at the lowest row with more than 128 rows on the path to it. A path goes from the
///   root to a child, and from a row to a child; the members of a list are all children of its owner;
/// - [`Reason::TooShort`] where the text is longer than the buffer.
///
/// ```
/// use shigthapul::{json, Kind, Reason, Row};
///
/// // The file has one name, and the tree is `var frame ;`.
/// let file = b"\x07\0\x05frame";
/// let pool = Row::new(Kind::Var, 0).words();
/// let mut buffer = [b'.'; 64];
/// let text = json(&pool, 1, file, &mut buffer).unwrap();
/// assert_eq!(text, r#"{"kind":"var","mark":0,"place":0,"payload":"frame","c0":null}"#);
/// assert_eq!(buffer[61..], [0; 3]);
///
/// // A name is no int.
/// let pool = Row::new(Kind::Int, 0).words();
/// let refusal = json(&pool, 1, file, &mut buffer).unwrap_err();
/// assert_eq!((refusal.reason, refusal.place), (Reason::NoTree, 1));
/// assert_eq!(buffer, [0; 64]);
/// ```
pub fn json<'a>(
    pool: &[u32],
    root: u32,
    file: &[u8],
    text: &'a mut [u8],
) -> Result<&'a str, Refusal> {
    let length = counted(|answer| raw::json(pool, root as usize, file, text, answer))?;
    // SAFETY: by `WritesJson`; see the head of this module.
    Ok(unsafe { from_utf8_unchecked(&text[..length]) })
}

/// The same for a thread with little stack. It looks only at the first
/// [`SMALL_ROWS`](crate::SMALL_ROWS) rows of the pool, as if there were no more.
pub fn json_small<'a>(
    pool: &[u32],
    root: u32,
    file: &[u8],
    text: &'a mut [u8],
) -> Result<&'a str, Refusal> {
    let length = counted(|answer| raw::json_small(pool, root as usize, file, text, answer))?;
    // SAFETY: by `WritesJson`; see the head of this module.
    Ok(unsafe { from_utf8_unchecked(&text[..length]) })
}

/// The text of the tree at a root, in a buffer that is large enough for it. Where rows share a field it
/// may be longer than at first thought.
pub(crate) fn json_of(pool: &[u32], root: u32, file: &[u8]) -> Result<String, Refusal> {
    let rows = (pool.len() / ROW_WORDS).min(MOST_ROWS);
    let mut room = ROW_BYTES * rows + PAYLOAD_BYTES * file.len().min(MOST_BYTES);
    loop {
        let mut text = vec![0; room];
        match json(pool, root, file, &mut text) {
            Err(Refusal { reason: Reason::TooShort, .. }) => room *= 2,
            answer => return answer.map(String::from),
        }
    }
}
