//! The signs that strict mode asks for, found without a reader: by the brackets of an array, and by
//! the rows of an accepted answer.
use crate::batch::{Answer, Case};
use crate::kinds::CALL;
use crate::model::{CHILDREN, ROW, WRONG_SIGN};
use crate::places;
use crate::words::*;
use std::collections::BTreeMap;
use std::fmt;

/// The forms that need their sign: a call its closer, the others their body's opener.
#[derive(Clone, Copy, Debug, PartialEq, Eq, PartialOrd, Ord)]
enum Form {
    Call,
    While,
    Foreach,
    Finally,
}

/// The forms by name.
const FORMS: [(&str, Form); 4] = [
    ("call", Form::Call),
    ("while", Form::While),
    ("foreach", Form::Foreach),
    ("finally", Form::Finally),
];

/// How often the sign of each form was missing.
#[derive(Debug, Default, PartialEq)]
pub struct Missing(BTreeMap<Form, usize>);

impl Missing {
    /// Counts an answer, if it is a refusal for a wrong sign.
    pub fn count(&mut self, case: &Case, answer: &Answer) {
        if answer.words[0] == WRONG_SIGN {
            *self.0.entry(form(&case.tokens, answer.words[1] as usize)).or_default() += 1;
        }
    }

    /// Whether that of each form was.
    pub fn has_all(&self) -> bool {
        self.0.len() == FORMS.len()
    }
}

impl fmt::Display for Missing {
    fn fmt(&self, to: &mut fmt::Formatter) -> fmt::Result {
        let count = |form| self.0.get(&form).unwrap_or(&0);
        let named = FORMS.map(|(name, form)| format!("{}: {}", name, count(form)));
        write!(to, "{}", named.join(", "))
    }
}

/// The brackets, opener and closer.
const BRACKETS: [(u16, u16); 3] = [(LPAREN, RPAREN), (LBRACE, RBRACE), (LBOX, RBOX)];

/// The brackets of a part of an array.
#[derive(Debug, Default, PartialEq)]
struct Brackets {
    /// Those that are open at its end: the place, and the closer that they need.
    open: Vec<(usize, u16)>,
    /// The places of those that are closed: opener and closer.
    pairs: Vec<(usize, usize)>,
}

/// The brackets from one place to another; None if a closer has no opener of its kind.
fn brackets(tokens: &[u16], from: usize, to: usize) -> Option<Brackets> {
    let mut found = Brackets::default();
    for (place, &word) in tokens.iter().enumerate().take(to + 1).skip(from) {
        if let Some(&(_, closer)) = BRACKETS.iter().find(|pair| pair.0 == word) {
            found.open.push((place, closer));
        } else if BRACKETS.iter().any(|pair| pair.1 == word) {
            let (opener, _) = found.open.pop().filter(|&(_, closer)| closer == word)?;
            found.pairs.push((opener, place));
        }
    }
    Some(found)
}

/// The pairs of brackets in what an accepted case has read; None if they don't nest.
fn read_pairs(case: &Case, answer: &Answer) -> Option<Vec<(usize, usize)>> {
    let found = brackets(&case.tokens, case.first_place(), answer.words[3] as usize)?;
    found.open.is_empty().then_some(found.pairs)
}

/// Where an accepted case has the openers of the bodies that take any token in the old mode.
fn openers(answer: &Answer) -> impl Iterator<Item = usize> + '_ {
    let place = |reference: u32| answer.rows[(reference as usize - 1) * ROW + 2] as usize;
    answer.rows.chunks(ROW).flat_map(move |row| {
        let blocks = places::blocks_of(row[0]).iter().filter(|(_, _, braced)| !braced);
        let bodies = blocks.map(|(slot, _, _)| row[CHILDREN][*slot]);
        bodies.filter(|&body| body != 0).map(place)
    })
}

/// Where the calls with arguments of an accepted case have their closers, by its brackets.
fn closers<'a>(
    answer: &'a Answer,
    pairs: &'a [(usize, usize)],
) -> impl Iterator<Item = usize> + 'a {
    let calls = answer.rows.chunks(ROW).filter(|row| row[0] == CALL && row[CHILDREN][1] != 0);
    calls.flat_map(|call| pairs.iter().filter(|pair| pair.0 == call[2] as usize)).map(|pair| pair.1)
}

/// Whether an accepted case has every sign that strict mode asks for. A call that is closed by another
/// token leaves its bracket open, so the brackets don't nest, unless some body has another opener.
pub fn are_there(case: &Case, answer: &Answer) -> bool {
    let opened = openers(answer).all(|place| case.tokens[place] == LBRACE);
    opened && read_pairs(case, answer).is_some()
}

/// Where the signs stand that strict mode asks for; nowhere in a case that is refused or lacks one.
pub fn places(case: &Case, answer: &Answer) -> Vec<usize> {
    if answer.words[0] != 0 || !are_there(case, answer) {
        return vec![];
    }
    let pairs = read_pairs(case, answer).unwrap_or_default();
    openers(answer).chain(closers(answer, &pairs)).collect()
}

/// Whether a sign that strict mode asks for may be missing behind a place: another token comes next,
/// and where it is the closer of a call, a bracket is open.
pub fn may_be_missing(case: &Case, place: usize) -> bool {
    let Some(found) = brackets(&case.tokens, case.first_place(), place) else {
        return false;
    };
    let next = case.tokens.get(place + 1).copied();
    match form(&case.tokens, place) {
        Form::Call => {
            let open = found.open.last().map(|&(_, closer)| closer);
            open == Some(RPAREN) && next != open
        }
        _ => next != Some(LBRACE),
    }
}

/// The form whose sign is missing behind a place, if one is.
fn form(tokens: &[u16], place: usize) -> Form {
    match tokens[place] {
        FINALLY => Form::Finally,
        IMPL => Form::Foreach,
        RPAREN if before_bracket(tokens, place) == Some(WHILE) => Form::While,
        _ => Form::Call,
    }
}

/// The word before the bracket that is closed at a place.
fn before_bracket(tokens: &[u16], place: usize) -> Option<u16> {
    let mut open = 0;
    for at in (0..=place).rev() {
        match tokens[at] {
            RPAREN => open += 1,
            LPAREN => open -= 1,
            _ => (),
        }
        if open == 0 {
            return at.checked_sub(1).map(|before| tokens[before]);
        }
    }
    None
}

#[cfg(test)]
mod tests {
    use super::*;
    use crate::gen::{cases, Kind, Wish};
    use crate::model::Mode;
    use crate::text;

    fn words(text: &str) -> Vec<u16> {
        text::to_words(text).unwrap().concat()
    }

    #[test]
    fn brackets_nest_or_not() {
        let open = |text: &str| {
            let words = words(text);
            brackets(&words, 0, words.len() - 1).map(|found| found.open)
        };
        assert_eq!(open("a"), Some(vec![]));
        assert_eq!(open("f ( [ { } , ( a ) ] )"), Some(vec![]));
        assert_eq!(open("f ( [ a"), Some(vec![(1, RPAREN), (2, RBOX)]));
        assert!(["a )", "f ( [ a ) ]", "f ( a }"].iter().all(|text| open(text).is_none()));
        let part = brackets(&words(") ( a ) ("), 1, 3);
        assert_eq!(part, Some(Brackets { open: vec![], pairs: vec![(1, 3)] }));
    }

    #[test]
    fn the_form_is_that_before_the_place() {
        let form = |text: &str, place| form(&words(text), place);
        assert_eq!(form("f ( a b", 2), Form::Call);
        assert_eq!(form("while ( a ) b }", 3), Form::While);
        assert_eq!(form("while ( ( a . b ) ) b }", 7), Form::While);
        assert_eq!(form("f ( while ( a ) b", 5), Form::While);
        assert_eq!(form("f ( g ( a ) b", 5), Form::Call);
        assert_eq!(form("f ( ( a . b ) c", 6), Form::Call);
        assert_eq!(form("foreach a , b , c => d }", 6), Form::Foreach);
        assert_eq!(form("try { } catch e { } finally d }", 7), Form::Finally);
    }

    /// The strict answer to a case whose word at a place is one that begins and closes nothing.
    fn spoiled(case: &Case, place: usize) -> [u32; 4] {
        let mut spoiled = case.clone();
        spoiled.tokens[place] = CATCH;
        spoiled.answer().words
    }

    #[test]
    fn each_sign_that_is_asked_for_is_missed_right_behind_what_was_read() {
        let wish = Wish { count: Some(600), mode: Mode::Strict, ..Wish::of(Kind::Valid, 4) };
        let mut missing = Missing::default();
        for case in cases(&wish).filter(|case| case.answer().words[0] == 0) {
            let answer = case.answer();
            let asked = places(&case, &answer);
            for place in case.first_place()..=answer.words[3] as usize {
                if asked.contains(&place) {
                    let words = spoiled(&case, place);
                    assert_eq!(words, [WRONG_SIGN, place as u32 - 1, 0, 0], "{:?}", case);
                    missing.count(&case, &Answer { words, clean: 1, rows: vec![] });
                } else if [RPAREN, LBRACE].contains(&case.tokens[place]) {
                    assert_ne!(spoiled(&case, place)[0], WRONG_SIGN, "{} in {:?}", place, case);
                }
            }
        }
        assert!(missing.has_all(), "{}", missing);
    }
}
