//! The text of strings.
use crate::answer::counted;
use crate::{raw, Refusal};

/// Folds a string's payload, and answers the length of its text.
///
/// Each pair of backslashes, from left to right, becomes one. The text is written to the front of
/// `work`; with no pair nothing is written, and `work` may be of any size. A `work` that is too
/// short is refused and stays as it was. [`text`] hands back what was folded.
///
/// ```
/// use shigthapul::{fold, text, Reason};
///
/// let payload = br"C:\\temp";
/// let mut work = [b'.'; 9];
/// assert_eq!(fold(payload, &mut work), Ok(7));
/// assert_eq!(text(payload, &work), br"C:\temp");
/// assert_eq!(&work, br"C:\temp..");
///
/// assert_eq!(fold(payload, &mut work[..6]).unwrap_err().reason, Reason::NoRoom);
/// ```
pub fn fold(payload: &[u8], work: &mut [u8]) -> Result<usize, Refusal> {
    counted(|answer| raw::fold(payload, work, answer))
}

/// The text of a string: its own payload where that has no pair of backslashes, otherwise the front
/// of `work`, into which it was folded. Where `work` is shorter than the text, an empty part of it.
///
/// ```
/// use shigthapul::text;
///
/// let payload = b"tendon";
/// assert_eq!(text(payload, &[]).as_ptr(), payload.as_ptr());
/// ```
pub fn text<'a>(payload: &'a [u8], work: &'a [u8]) -> &'a [u8] {
    let mut answer = [0; 4];
    raw::text(payload, work, &mut answer);
    let from = if answer[2] == 1 { work } else { payload };
    &from[..answer[1] as usize]
}
