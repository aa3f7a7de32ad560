//! The twelve C functions as they are, over slices; with `unicode.rs` and `json.rs` the only unsafe code
//! of this crate.
//!
//! Each writes the four words of its answer to the front of `answer`, as far as that goes; words
//! behind the fourth stay as they were. The functions of the crate's root are built on these.
//!
//! ```
//! use shigthapul::ROW_WORDS;
//!
//! let mut pool = [7; ROW_WORDS + 1];
//! let mut answer = [9; 3];
//! shigthapul::raw::whole_script(&[0x0700, 0x0B00], &mut pool, true, &mut answer);
//! assert_eq!(answer, [1, 1, 0]); // refusal 1 at place 1
//! assert_eq!(pool, [0; ROW_WORDS + 1]);
//! ```
//!
//! # Why the calls are sound
//!
//! - Every pointer comes from a slice and goes with that slice's own length. So it is not null, it
//!   is aligned, and good for so many elements; where there are none it is not followed.
//! - What is written comes from `&mut` slices, so that nothing else refers to it during the call.
//! - A `bool` here is C's own: a byte that is 0 or 1.
//! - The functions ask nothing else of a caller. For any words and any lengths they are proved to
//!   stay inside what they are lent, and to return. They have no state, and keep no pointer.
//!
//! What is trusted: that the declarations below are those of the library. The tests call each one.
#![allow(unsafe_code)]

extern "C" {
    fn shigthapul_one_expression(
        tokens: *const u16,
        tokens_len: usize,
        pool: *mut u32,
        pool_len: usize,
        start: usize,
        strict: bool,
        answer: *mut u64,
        answer_len: usize,
    );
    fn shigthapul_one_statement(
        tokens: *const u16,
        tokens_len: usize,
        pool: *mut u32,
        pool_len: usize,
        start: usize,
        strict: bool,
        answer: *mut u64,
        answer_len: usize,
    );
    fn shigthapul_whole_script(
        tokens: *const u16,
        tokens_len: usize,
        pool: *mut u32,
        pool_len: usize,
        strict: bool,
        answer: *mut u64,
        answer_len: usize,
    );
    fn shigthapul_read_file(
        bytes: *const u8,
        bytes_len: usize,
        words: *mut u16,
        words_len: usize,
        answer: *mut u64,
        answer_len: usize,
    );
    fn shigthapul_fold(
        payload: *const u8,
        payload_len: usize,
        work: *mut u8,
        work_len: usize,
        answer: *mut u64,
        answer_len: usize,
    );
    fn shigthapul_text(
        payload: *const u8,
        payload_len: usize,
        work: *const u8,
        work_len: usize,
        answer: *mut u64,
        answer_len: usize,
    );
    fn shigthapul_check(
        pool: *const u32,
        pool_len: usize,
        root: usize,
        answer: *mut u64,
        answer_len: usize,
    );
    fn shigthapul_check_small(
        pool: *const u32,
        pool_len: usize,
        root: usize,
        answer: *mut u64,
        answer_len: usize,
    );
    fn shigthapul_write(
        pool: *const u32,
        pool_len: usize,
        root: usize,
        words: *mut u16,
        words_len: usize,
        places: *mut u32,
        places_len: usize,
        answer: *mut u64,
        answer_len: usize,
    );
    fn shigthapul_write_small(
        pool: *const u32,
        pool_len: usize,
        root: usize,
        words: *mut u16,
        words_len: usize,
        places: *mut u32,
        places_len: usize,
        answer: *mut u64,
        answer_len: usize,
    );
    fn shigthapul_json(
        pool: *const u32,
        pool_len: usize,
        root: usize,
        file: *const u8,
        file_len: usize,
        text: *mut u8,
        text_len: usize,
        answer: *mut u64,
        answer_len: usize,
    );
    fn shigthapul_json_small(
        pool: *const u32,
        pool_len: usize,
        root: usize,
        file: *const u8,
        file_len: usize,
        text: *mut u8,
        text_len: usize,
        answer: *mut u64,
        answer_len: usize,
    );
}

/// Reads one expression from a start place, in strict mode or in the old one: 0, root, rows, place; or
/// a refusal's number and place.
pub fn one_expression(
    tokens: &[u16],
    pool: &mut [u32],
    start: usize,
    strict: bool,
    answer: &mut [u64],
) {
    // SAFETY: see the head of this module.
    unsafe {
        shigthapul_one_expression(
            tokens.as_ptr(),
            tokens.len(),
            pool.as_mut_ptr(),
            pool.len(),
            start,
            strict,
            answer.as_mut_ptr(),
            answer.len(),
        )
    }
}

/// Reads one statement from a start place: the same answer.
pub fn one_statement(
    tokens: &[u16],
    pool: &mut [u32],
    start: usize,
    strict: bool,
    answer: &mut [u64],
) {
    // SAFETY: see the head of this module.
    unsafe {
        shigthapul_one_statement(
            tokens.as_ptr(),
            tokens.len(),
            pool.as_mut_ptr(),
            pool.len(),
            start,
            strict,
            answer.as_mut_ptr(),
            answer.len(),
        )
    }
}

/// Reads a whole script: the same answer.
pub fn whole_script(tokens: &[u16], pool: &mut [u32], strict: bool, answer: &mut [u64]) {
    // SAFETY: see the head of this module.
    unsafe {
        shigthapul_whole_script(
            tokens.as_ptr(),
            tokens.len(),
            pool.as_mut_ptr(),
            pool.len(),
            strict,
            answer.as_mut_ptr(),
            answer.len(),
        )
    }
}

/// Reads a token file into words: 0 and the count of fields; or a refusal's number and place.
pub fn read_file(bytes: &[u8], words: &mut [u16], answer: &mut [u64]) {
    // SAFETY: see the head of this module.
    unsafe {
        shigthapul_read_file(
            bytes.as_ptr(),
            bytes.len(),
            words.as_mut_ptr(),
            words.len(),
            answer.as_mut_ptr(),
            answer.len(),
        )
    }
}

/// Folds a string's payload: 0 and the length of its text; or a refusal's number and place.
pub fn fold(payload: &[u8], work: &mut [u8], answer: &mut [u64]) {
    // SAFETY: see the head of this module.
    unsafe {
        shigthapul_fold(
            payload.as_ptr(),
            payload.len(),
            work.as_mut_ptr(),
            work.len(),
            answer.as_mut_ptr(),
            answer.len(),
        )
    }
}

/// Finds a string's text: 0, its length, and 1 where it is the front of `work`, 0 where it is the
/// payload.
pub fn text(payload: &[u8], work: &[u8], answer: &mut [u64]) {
    // SAFETY: see the head of this module.
    unsafe {
        shigthapul_text(
            payload.as_ptr(),
            payload.len(),
            work.as_ptr(),
            work.len(),
            answer.as_mut_ptr(),
            answer.len(),
        )
    }
}

/// Checks that the rows which a root reaches are a tree: zeros; or a refusal's number and place.
pub fn check(pool: &[u32], root: usize, answer: &mut [u64]) {
    // SAFETY: see the head of this module.
    unsafe { shigthapul_check(pool.as_ptr(), pool.len(), root, answer.as_mut_ptr(), answer.len()) }
}

/// The same over the first 4,096 rows of the pool, with little stack.
pub fn check_small(pool: &[u32], root: usize, answer: &mut [u64]) {
    // SAFETY: see the head of this module.
    unsafe {
        shigthapul_check_small(pool.as_ptr(), pool.len(), root, answer.as_mut_ptr(), answer.len())
    }
}

/// Writes the tree at a root as token words, with the place of each token's payload: 0 and the count of
/// tokens; or a refusal's number and place.
pub fn write(pool: &[u32], root: usize, words: &mut [u16], places: &mut [u32], answer: &mut [u64]) {
    // SAFETY: see the head of this module.
    unsafe {
        shigthapul_write(
            pool.as_ptr(),
            pool.len(),
            root,
            words.as_mut_ptr(),
            words.len(),
            places.as_mut_ptr(),
            places.len(),
            answer.as_mut_ptr(),
            answer.len(),
        )
    }
}

/// The same over the first 4,096 rows of the pool, with little stack.
pub fn write_small(
    pool: &[u32],
    root: usize,
    words: &mut [u16],
    places: &mut [u32],
    answer: &mut [u64],
) {
    // SAFETY: see the head of this module.
    unsafe {
        shigthapul_write_small(
            pool.as_ptr(),
            pool.len(),
            root,
            words.as_mut_ptr(),
            words.len(),
            places.as_mut_ptr(),
            places.len(),
            answer.as_mut_ptr(),
            answer.len(),
        )
    }
}

/// Writes the tree at a root as a JSON text, with the payloads of a token file: 0 and the length of the
/// text; or a refusal's number and place.
pub fn json(pool: &[u32], root: usize, file: &[u8], text: &mut [u8], answer: &mut [u64]) {
    // SAFETY: see the head of this module.
    unsafe {
        shigthapul_json(
            pool.as_ptr(),
            pool.len(),
            root,
            file.as_ptr(),
            file.len(),
            text.as_mut_ptr(),
            text.len(),
            answer.as_mut_ptr(),
            answer.len(),
        )
    }
}

/// The same over the first 4,096 rows of the pool, with little stack.
pub fn json_small(pool: &[u32], root: usize, file: &[u8], text: &mut [u8], answer: &mut [u64]) {
    // SAFETY: see the head of this module.
    unsafe {
        shigthapul_json_small(
            pool.as_ptr(),
            pool.len(),
            root,
            file.as_ptr(),
            file.len(),
            text.as_mut_ptr(),
            text.len(),
            answer.as_mut_ptr(),
            answer.len(),
        )
    }
}
