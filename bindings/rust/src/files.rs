//! The token file reader.
use crate::answer::counted;
use crate::{raw, Refusal};

/// Reads a token file into the front of a buffer of words, and hands back the words of its fields.
///
/// A field is a tag (the token's class), a length of two bytes, high byte first, and a payload.
/// Words behind the last field become zero; after a refusal all of them are. A
/// [`TokenFile`](crate::TokenFile) is read in the same way, and has the payloads too.
///
/// ```
/// use shigthapul::{read_file, Reason};
///
/// // `a + b` and EOF
/// let file = [7, 0, 1, b'a', 8, 0, 1, 1, 7, 0, 1, b'b', 2, 0, 0];
/// let mut words = [9; 5];
/// assert_eq!(read_file(&file, &mut words), Ok(&[0x0700, 0x0801, 0x0700, 0x0200][..]));
/// assert_eq!(words[4], 0);
///
/// // The last field is cut short.
/// let refusal = read_file(&file[..14], &mut words).unwrap_err();
/// assert_eq!((refusal.reason, refusal.place), (Reason::BadField, 3));
/// assert_eq!(words, [0; 5]);
/// ```
pub fn read_file<'a>(bytes: &[u8], words: &'a mut [u16]) -> Result<&'a [u16], Refusal> {
    let count = counted(|answer| raw::read_file(bytes, words, answer))?;
    Ok(&words[..count])
}
