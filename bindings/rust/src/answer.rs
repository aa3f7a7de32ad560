//! The answers of the C functions: accepted or refused.
use crate::{Reason, Refusal};

/// The words behind the 0 of the answer that a call writes, or its refusal.
pub(crate) fn accepted(call: impl FnOnce(&mut [u64])) -> Result<[u64; 3], Refusal> {
    let mut answer = [0; 4];
    call(&mut answer);
    match answer {
        [0, words @ ..] => Ok(words),
        [number, place, ..] => {
            let reason = Reason::from_number(number as u32).expect("a number of the table");
            Err(Refusal { reason, place: place as usize })
        }
    }
}

/// The count in the answer that a call writes, or its refusal.
pub(crate) fn counted(call: impl FnOnce(&mut [u64])) -> Result<usize, Refusal> {
    accepted(call).map(|[count, ..]| count as usize)
}
