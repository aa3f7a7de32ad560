//! Text and characters that need no second check: the fields of a token file that was accepted, and
//! the text of a string.
//!
//! # Why the unsafe code is sound
//!
//! A `str` and a `char` must be Unicode. That these are is proved of the library (`docs/CLAIMS.md`):
//!
//! - `UnicodePayloads`: in a file that is accepted each Str, Identifier and Unknown is well-formed
//!   UTF-8, and each Char, the high byte first, is a Unicode scalar value.
//! - `TextKeeps`: what is handed back behind a fold of well-formed UTF-8 is well-formed UTF-8, whatever the
//!   work buffer.
//!
//! What is left to see to here is that the bytes are those that the claims speak of. A [`TokenFile`]
//! comes only from [`TokenFile::read`], where the library has just accepted its bytes. It borrows them
//! and their words, and so does each [`Field`]: neither can change while one of them lives.
//!
//! What is trusted: that the library is the one that this repository builds. One from before there
//! was a refusal 33 looks at no text, and a `str` from its files might be none.
#![allow(unsafe_code)]
use crate::{fold, read_file, text, Refusal, Token};
use std::str::from_utf8_unchecked;

/// A token file that was accepted: its token words, and its fields with their payloads.
///
/// ```
/// use shigthapul::{Reason, Token, TokenFile};
///
/// // `é = '!'` and EOF
/// let bytes = *b"\x07\0\x02\xC3\xA9\x08\0\x01\x0F\x06\0\x04\0\0\0!\x02\0\0";
/// let mut words = [0; 20_000];
/// let file = TokenFile::read(&bytes, &mut words).unwrap();
/// assert_eq!(file.words(), [0x0700, 0x080F, 0x0600, 0x0200]);
///
/// let name = file.fields().next().unwrap();
/// assert_eq!((name.token(), name.text()), (Some(Token::Identifier), Some("é")));
/// assert_eq!(file.fields().find_map(|field| field.character()), Some('!'));
///
/// // Without its last byte the name is no text.
/// let refusal = TokenFile::read(b"\x07\0\x01\xC3\x02\0\0", &mut words).unwrap_err();
/// assert_eq!((refusal.reason, refusal.place), (Reason::NotUnicode, 0));
/// ```
///
/// The bytes can't be changed as long as it is there:
///
/// ```compile_fail,E0506
/// let mut bytes = *b"\x07\0\x01a\x02\0\0";
/// let mut words = [0; 2];
/// let file = shigthapul::TokenFile::read(&bytes, &mut words).unwrap();
/// bytes[3] = 0xFF;
/// assert_eq!(file.words().len(), 2);
/// ```
#[derive(Clone, Copy, Debug, PartialEq, Eq)]
pub struct TokenFile<'a> {
    bytes: &'a [u8],
    words: &'a [u16],
}

impl<'a> TokenFile<'a> {
    /// Reads a token file as [`read_file`] does, with the same words and the same refusals.
    pub fn read(bytes: &'a [u8], words: &'a mut [u16]) -> Result<TokenFile<'a>, Refusal> {
        Ok(TokenFile { bytes, words: read_file(bytes, words)? })
    }

    /// The token words, one for each field.
    pub fn words(&self) -> &'a [u16] {
        self.words
    }

    /// The fields from the first to the last. That of a token at a place has the place as its number.
    pub fn fields(&self) -> Fields<'a> {
        Fields { words: self.words, rest: self.bytes }
    }
}

/// The fields of a token file that was accepted, in order.
#[derive(Clone, Debug)]
pub struct Fields<'a> {
    words: &'a [u16],
    rest: &'a [u8],
}

impl<'a> Iterator for Fields<'a> {
    type Item = Field<'a>;

    fn next(&mut self) -> Option<Field<'a>> {
        match (self.words, self.rest) {
            (&[word, ref words @ ..], &[_, high, low, ref behind @ ..]) => {
                let length = usize::from(u16::from_be_bytes([high, low]));
                let payload = behind.get(..length)?;
                *self = Fields { words, rest: &behind[length..] };
                Some(Field { word, payload })
            }
            _ => None,
        }
    }
}

/// A field of a token file that was accepted: a token with its payload.
#[derive(Clone, Copy, Debug, PartialEq, Eq)]
pub struct Field<'a> {
    word: u16,
    payload: &'a [u8],
}

impl<'a> Field<'a> {
    /// The token; none for an operator or a keyword with a bad code, which the file reader doesn't
    /// judge.
    pub fn token(&self) -> Option<Token> {
        Token::from_word(self.word)
    }

    /// The payload.
    pub fn payload(&self) -> &'a [u8] {
        self.payload
    }

    /// The payload as text, for a Str, an Identifier and an Unknown. That of a Str is not folded yet:
    /// see [`fold_str`].
    pub fn text(&self) -> Option<&'a str> {
        match self.token()? {
            Token::Str | Token::Identifier | Token::Unknown => {
                // SAFETY: by `UnicodePayloads`; see the head of this module.
                Some(unsafe { from_utf8_unchecked(self.payload) })
            }
            _ => None,
        }
    }

    /// The payload as a character, for a Char.
    pub fn character(&self) -> Option<char> {
        match (self.token()?, self.payload) {
            (Token::Char, &[a, b, c, d]) => {
                // SAFETY: by `UnicodePayloads`; see the head of this module.
                Some(unsafe { char::from_u32_unchecked(u32::from_be_bytes([a, b, c, d])) })
            }
            _ => None,
        }
    }
}

/// The text of a string whose payload is text: [`fold`] and [`text()`] in one.
///
/// ```
/// use shigthapul::fold_str;
///
/// let mut work = [0; 9];
/// assert_eq!(fold_str(r"C:\\été", &mut work), Ok(r"C:\été"));
/// assert_eq!(fold_str("épaisseur", &mut []), Ok("épaisseur"));
/// ```
pub fn fold_str<'a>(payload: &'a str, work: &'a mut [u8]) -> Result<&'a str, Refusal> {
    let payload = payload.as_bytes();
    fold(payload, work)?;
    // SAFETY: by `TextKeeps`; see the head of this module.
    Ok(unsafe { from_utf8_unchecked(text(payload, work)) })
}
