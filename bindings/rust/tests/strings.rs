//! The text of strings.
use shigthapul::{fold, fold_str, text, Reason, Refusal};

/// What the work buffer has in it before it is lent.
const DIRT: u8 = b'.';

#[test]
fn payloads_and_their_texts() {
    let cases: [(&[u8], &[u8]); 9] = [
        (b"", b""),
        (b"a", b"a"),
        (br"\", br"\"),
        (br"\\", br"\"),
        (br"\\\", br"\\"),
        (br"\\\\", br"\\"),
        (br"a\b\\c", br"a\b\c"),
        (br"\n\\n\", br"\n\n\"),
        (b"\\\\\x00\xFF", b"\\\x00\xFF"),
    ];
    for (payload, expected) in cases {
        let mut work = [DIRT; 12];
        assert_eq!(fold(payload, &mut work), Ok(expected.len()));
        assert_eq!(text(payload, &work), expected);
        let written = if payload == expected { 0 } else { expected.len() };
        assert_eq!(work[..written], expected[..written]);
        assert!(work[written..].iter().all(|&byte| byte == DIRT));
    }
}

#[test]
fn texts_stay_texts() {
    let cases =
        [("", ""), ("é", "é"), (r"é\ü", r"é\ü"), (r"\\é\\\", r"\é\\"), ("\0\\\\𝄞", "\0\\𝄞")];
    for (payload, expected) in cases {
        // Bytes that are no text, as a buffer may have them from before.
        let mut work = [0xFF; 12];
        assert_eq!(fold_str(payload, &mut work), Ok(expected));
    }
    let refused = Err(Refusal { reason: Reason::NoRoom, place: 0 });
    assert_eq!(fold_str(r"\\é", &mut [0xFF; 2]), refused);
    assert_eq!(fold_str(r"\\é", &mut [0xFF; 3]), Ok(r"\é"));
}

#[test]
fn a_text_without_a_pair_is_the_payload_itself() {
    let payload = *br"a\b";
    assert_eq!(fold(&payload, &mut []), Ok(3));
    let found = text(&payload, &[]);
    assert_eq!((found.as_ptr(), found.len()), (payload.as_ptr(), 3));
}

#[test]
fn a_text_with_a_pair_is_the_front_of_the_work_buffer() {
    let mut work = [DIRT; 4];
    assert_eq!(fold(br"\\a", &mut work), Ok(2));
    let found = text(br"\\a", &work);
    assert_eq!((found.as_ptr(), found.len()), (work.as_ptr(), 2));
}

#[test]
fn a_work_buffer_that_is_too_short() {
    let mut work = [DIRT; 1];
    let refused = Err(Refusal { reason: Reason::NoRoom, place: 0 });
    assert_eq!(fold(br"\\a", &mut work), refused);
    assert_eq!(work, [DIRT]);
    assert_eq!(text(br"\\a", &work), b"");
    assert_eq!(fold(br"\\", &mut []), refused);
    assert_eq!(text(br"\\", &[]), b"");
}

#[test]
fn a_long_payload() {
    let payload = vec![b'\\'; 60_001];
    let mut work = vec![DIRT; 30_002];
    assert_eq!(fold(&payload, &mut work), Ok(30_001));
    assert_eq!(text(&payload, &work), vec![b'\\'; 30_001]);
    assert_eq!(work[30_001], DIRT);
}
