//! The token file reader.
mod common;
use common::field;
use shigthapul::{read_file, Keyword, Reason, Refusal, Symbol, Token};

/// What the buffer has in it before it is lent.
const DIRT: u16 = 0xBEEF;

/// The refusal of a file, by a buffer of eight words that must then be zero.
fn refused(file: &[u8]) -> Refusal {
    let mut words = [DIRT; 8];
    let refusal = read_file(file, &mut words).unwrap_err();
    assert_eq!(words, [0; 8]);
    refusal
}

/// The refusals of a field.
fn bad_field(place: usize) -> Refusal {
    Refusal { reason: Reason::BadField, place }
}

fn not_unicode(place: usize) -> Refusal {
    Refusal { reason: Reason::NotUnicode, place }
}

/// The words of a field with a payload and of EOF behind it; or the refusal.
fn of_one(token: Token, payload: &[u8]) -> Result<Vec<u16>, Refusal> {
    let file = [field(token, payload), field(Token::EOF, &[])].concat();
    let mut words = [DIRT; 2];
    read_file(&file, &mut words).map(|words| words.to_vec())
}

#[test]
fn a_field_of_each_class() {
    let file = [
        &[0, 0, 0][..],
        &[1, 0, 0],
        &[3, 0, 8, 0, 0, 0, 0, 0, 0, 0, 1],
        &[4, 0, 2, 0xC3, 0xA9],
        &[5, 0, 8, 0, 0, 0, 0, 0, 0, 0, 0],
        &[6, 0, 4, 0, 0x10, 0xFF, 0xFF],
        &[7, 0, 0],
        &[8, 0, 1, 36],
        &[9, 0, 1, 27],
        &[10, 0, 1, 7],
        &[2, 0, 0],
    ];
    let expected = [
        Token::Invalid,
        Token::Empty,
        Token::Integer,
        Token::Str,
        Token::Float,
        Token::Char,
        Token::Identifier,
        Token::Operator(Symbol::SImpl),
        Token::Keyword(Keyword::KAsync),
        Token::Unknown,
        Token::EOF,
    ];
    let mut words = [DIRT; 13];
    assert_eq!(read_file(&file.concat(), &mut words), Ok(&expected.map(Token::word)[..]));
    assert_eq!(words[11..], [0, 0]);
}

#[test]
fn codes_are_not_judged() {
    let mut words = [DIRT; 2];
    assert_eq!(read_file(&[8, 0, 1, 255, 9, 0, 1, 28], &mut words), Ok(&[0x08FF, 0x091C][..]));
}

#[test]
fn texts_and_characters_that_are_unicode() {
    let texts: [&[u8]; 5] =
        [b"", b"a", b"\xC3\xA9", b"\xEF\xBB\xBF\xEF\xBF\xBE\0", b"\xF4\x8F\xBF\xBF"];
    for token in [Token::Str, Token::Identifier, Token::Unknown] {
        for text in texts {
            assert_eq!(of_one(token, text), Ok(vec![token.word(), 0x0200]));
        }
    }
    for character in [0, 0xD7FF, 0xE000, 0xFFFE, 0x10_FFFF_u32] {
        assert_eq!(of_one(Token::Char, &character.to_be_bytes()), Ok(vec![0x0600, 0x0200]));
    }
}

#[test]
fn texts_and_characters_that_are_not_unicode() {
    let texts: [&[u8]; 6] =
        [b"\xC0\x80", b"\xED\xA0\x80", b"\xF4\x90\x80\x80", b"a\xE2\x82", b"\x80", b"\xFF"];
    for token in [Token::Str, Token::Identifier, Token::Unknown] {
        for text in texts {
            assert_eq!(of_one(token, text), Err(not_unicode(0)));
        }
    }
    for number in [0xD800, 0xDFFF, 0x11_0000, 0x41_00_00_00, u32::MAX] {
        assert_eq!(of_one(Token::Char, &number.to_be_bytes()), Err(not_unicode(0)));
    }
}

#[test]
fn numbers_may_hold_anything() {
    assert_eq!(of_one(Token::Integer, &[0xFF; 8]), Ok(vec![0x0300, 0x0200]));
    assert_eq!(of_one(Token::Float, &[0xFF; 8]), Ok(vec![0x0500, 0x0200]));
}

#[test]
fn the_first_bad_field_decides_and_in_it_its_length() {
    let (end, cut) = (field(Token::EOF, &[]), [4, 0, 5, 0xFF, 0xFF]);
    let (half, rest) = (field(Token::Str, &[0xE2, 0x82]), field(Token::Str, &[0xAC]));
    let (bad, surrogate) = (field(Token::Str, &[0xFF]), field(Token::Char, &[0, 0, 0xD8, 0]));
    let of = |fields: &[&[u8]]| refused(&fields.concat());
    assert_eq!(of(&[&half, &rest, &end]), not_unicode(0));
    assert_eq!(of(&[&bad, &cut]), not_unicode(0));
    assert_eq!(of(&[&surrogate, &[11]]), not_unicode(0));
    assert_eq!(of(&[&cut]), bad_field(0));
    assert_eq!(of(&[&field(Token::Char, &[0, 0xD8, 0]), &end]), bad_field(0));
    assert_eq!(of(&[&end, &field(Token::Identifier, &[0x80]), &end]), not_unicode(1));
    assert_eq!(of(&[&end, &[11, 0, 0], &bad]), bad_field(1));
}

#[test]
fn an_empty_file_has_no_fields() {
    let mut words = [DIRT; 3];
    assert_eq!(read_file(&[], &mut words), Ok(&[][..]));
    assert_eq!(words, [0; 3]);
}

#[test]
fn bad_fields() {
    assert_eq!(refused(&[2]), bad_field(0));
    assert_eq!(refused(&[2, 0, 0, 7, 0]), bad_field(1));
    assert_eq!(refused(&[7, 0, 2, 97]), bad_field(0));
    assert_eq!(refused(&[2, 0, 0, 11, 0, 0]), bad_field(1));
    assert_eq!(refused(&[8, 0, 2, 1, 1]), bad_field(0));
    assert_eq!(refused(&[3, 0, 7, 0, 0, 0, 0, 0, 0, 0]), bad_field(0));
    assert_eq!(refused(&[7, 1, 0, 97]), bad_field(0));
}

#[test]
fn too_long_a_file_comes_before_a_bad_field() {
    let too_long = Refusal { reason: Reason::TooLong, place: 0 };
    assert_eq!(refused(&[11; 60_001]), too_long);
    assert_eq!(refused(&[11; 60_000]), bad_field(0));
    let texts = |length| [field(Token::Str, &vec![0xFF; length]), field(Token::EOF, &[])].concat();
    assert_eq!(refused(&texts(59_995)), too_long);
    assert_eq!(refused(&texts(59_994)), not_unicode(0));
}

#[test]
fn too_short_a_buffer_comes_after_a_bad_field() {
    let mut words = [DIRT; 2];
    let texts = [field(Token::Str, b"a").repeat(3), field(Token::Str, &[0xFF])].concat();
    assert_eq!(read_file(&texts, &mut words), Err(not_unicode(3)));
    let no_room = Refusal { reason: Reason::NoRoom, place: 0 };
    assert_eq!(read_file(&[0; 9], &mut words), Err(no_room));
    assert_eq!(words, [0; 2]);
    assert_eq!(read_file(&[0; 10], &mut words), Err(bad_field(3)));
    assert_eq!(read_file(&[0; 6], &mut words).map(|read| read.len()), Ok(2));
}
