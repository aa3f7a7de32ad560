//! Token files that were accepted, and their fields.
mod common;
use common::{field, repository};
use shigthapul::{read_file, Reason, Refusal, Symbol, Token, TokenFile};
use std::fs;

/// Fields of each class that has a payload, some with a code that stands for nothing.
fn fields() -> Vec<(Token, Vec<u8>)> {
    vec![
        (Token::Identifier, "größe".into()),
        (Token::Operator(Symbol::SEq), vec![15]),
        (Token::Str, "\0 \u{FEFF}\u{FFFE} 𝄞".into()),
        (Token::Char, vec![0, 0x10, 0xFF, 0xFF]),
        (Token::Integer, vec![0xFF; 8]),
        (Token::Float, vec![0xFF; 8]),
        (Token::Unknown, "€".into()),
        (Token::Identifier, vec![]),
        (Token::EOF, vec![]),
    ]
}

/// The bytes of such fields.
fn file_of(fields: &[(Token, Vec<u8>)]) -> Vec<u8> {
    fields.iter().flat_map(|(token, payload)| field(*token, payload)).collect()
}

#[test]
fn each_field_has_its_token_and_its_payload() {
    let (mut words, bytes) = ([9; 20], file_of(&fields()));
    let file = TokenFile::read(&bytes, &mut words).unwrap();
    let found = file.fields().map(|field| (field.token().unwrap(), field.payload().to_vec()));
    assert_eq!(found.collect::<Vec<_>>(), fields());
    assert_eq!(file.fields().count(), file.words().len());
    assert!(file.fields().all(|field| bytes.as_ptr_range().contains(&field.payload().as_ptr())
        || field.payload().is_empty()));
}

#[test]
fn texts_and_characters() {
    let (mut words, bytes) = ([9; 20], file_of(&fields()));
    let file = TokenFile::read(&bytes, &mut words).unwrap();
    let texts: Vec<_> = file.fields().map(|field| field.text()).collect();
    let (name, text, unknown) = (Some("größe"), Some("\0 \u{FEFF}\u{FFFE} 𝄞"), Some("€"));
    assert_eq!(texts, [name, None, text, None, None, None, unknown, Some(""), None]);
    let characters: Vec<_> = file.fields().map(|field| field.character()).collect();
    let last = Some(char::MAX);
    assert_eq!(characters, [None, None, None, last, None, None, None, None, None]);
}

#[test]
fn a_bad_code_is_no_token() {
    let mut words = [9; 2];
    let file = TokenFile::read(&[8, 0, 1, 255, 9, 0, 1, 28], &mut words).unwrap();
    assert_eq!(file.fields().count(), 2);
    for field in file.fields() {
        assert_eq!((field.token(), field.text(), field.character()), (None, None, None));
    }
}

/// The fields live as long as the bytes, and not only as long as the file.
fn first<'a>(bytes: &'a [u8], words: &'a mut [u16]) -> Result<Option<&'a str>, Refusal> {
    Ok(TokenFile::read(bytes, words)?.fields().next().and_then(|field| field.text()))
}

#[test]
fn the_refusals_are_those_of_the_reader() {
    let bytes = file_of(&fields());
    for length in 0..bytes.len() {
        let (mut words, mut again) = ([9; 20], [9; 20]);
        let read = read_file(&bytes[..length], &mut words).map(|words| words.len());
        let file = TokenFile::read(&bytes[..length], &mut again);
        assert_eq!(file.map(|file| file.fields().count()), read);
        assert_eq!(words, again);
    }
    assert_eq!(first(&bytes, &mut [9; 20]), Ok(Some("größe")));
    assert_eq!(first(&[], &mut [9; 20]), Ok(None));
    let refused = Refusal { reason: Reason::NotUnicode, place: 0 };
    assert_eq!(first(&[4, 0, 1, 0xC3, 2, 0, 0], &mut [9; 20]), Err(refused));
    let no_room = Refusal { reason: Reason::NoRoom, place: 0 };
    assert_eq!(first(&bytes, &mut [9; 8]), Err(no_room));
}

#[test]
fn the_names_of_a_sample() {
    let bytes = fs::read(repository("samples/report.tok")).unwrap();
    let mut words = vec![0; 20_000];
    let file = TokenFile::read(&bytes, &mut words).unwrap();
    let names = file.fields().filter(|field| field.token() == Some(Token::Identifier));
    let texts: Vec<&str> = names.filter_map(|field| field.text()).collect();
    assert_eq!(texts[0], "limits");
    assert!(texts.len() > 10 && texts.iter().all(|text| text.is_ascii()));
}
