//! Where the rows of an accepted answer end: laws that all ends keep, what the tokens tell of each by
//! its kind, and that each is the place of the refusal where just that row is lacking.
use crate::batch::{Answer, Case};
use crate::compare::summary;
use crate::kinds::{self, *};
use crate::model::{Entry, CHILDREN, END, NEXT, NO_ROW, ROW};
use crate::places::blocks_of;
use crate::words;

/// What may stand between the end of a part and the token where its reader left off: the brackets of
/// groups, and the semicolons that were eaten.
const BEHIND: [u16; 2] = [words::RPAREN, words::SEMICOLON];

/// The first row whose end can't be right, as a sentence. A refusal has none.
pub fn misplaced(case: &Case, answer: &Answer) -> Option<String> {
    if answer.words[0] != 0 {
        return None;
    }
    let told = |(index, why): (usize, &str)| {
        format!("row {}: {}: {:?}", index + 1, why, &answer.rows[index * ROW..][..ROW])
    };
    let unlawful = unlawful(&answer.rows, case.first_place() as u32, answer.words[3]);
    let unfit = || unfit(case, answer).map(|index| (index, "an end doesn't fit"));
    unlawful.map(|index| (index, "an end breaks a law")).or_else(unfit).map(told)
}

/// The first row, counted from 0, that breaks a law of ends: places and ends lie from the start to the
/// answer's place, no place is past the end, and no end is before that of an earlier row.
fn unlawful(rows: &[u32], from: u32, to: u32) -> Option<usize> {
    let mut before = from;
    rows.chunks(ROW).position(|row| {
        let (place, end) = (row[2], row[END]);
        let last = std::mem::replace(&mut before, end);
        !(from <= place && place <= end && last <= end && end <= to)
    })
}

/// The first row, counted from 0, whose end doesn't fit its kind. Ends keep the laws.
fn unfit(case: &Case, answer: &Answer) -> Option<usize> {
    let tree = Tree { tokens: &case.tokens, rows: &answer.rows };
    // A script's root is a block without braces, and ends at EOF.
    let script = if case.entry == Entry::Script { answer.root() as usize } else { 0 };
    let eof = case.tokens.len() - 1;
    answer.rows.chunks(ROW).zip(1..).position(|(row, reference)| {
        let is_script = reference == script;
        !(if is_script { row[END] as usize == eof } else { tree.end_fits(row) })
    })
}

/// The first row of an accepted answer that doesn't end where the case is refused for want of it, as
/// a sentence.
pub fn unlike_refusals(case: &Case, answer: &Answer) -> Option<String> {
    let mut few = case.clone();
    answer.rows.chunks(ROW).enumerate().find_map(|(before, row)| {
        few.pool = before * ROW;
        let refused = few.answer();
        let (reference, end) = (before + 1, row[END]);
        let told =
            || format!("row {} ends at {}, without it {}", reference, end, summary(&refused));
        (refused.words != [NO_ROW, end, 0, 0]).then(told)
    })
}

struct Tree<'a> {
    tokens: &'a [u16],
    rows: &'a [u32],
}

impl Tree<'_> {
    /// Where the last part in a slot of a row ends; None if the slot is empty.
    fn last_end(&self, row: &[u32], slot: usize) -> Option<u32> {
        let mut end = None;
        let mut reference = row[CHILDREN][slot] as usize;
        while reference != 0 {
            let part = &self.rows[(reference - 1) * ROW..][..ROW];
            end = Some(part[END]);
            reference = part[NEXT] as usize;
        }
        end
    }

    /// Whether a row's end fits its kind, its parts and the tokens.
    fn end_fits(&self, row: &[u32]) -> bool {
        match row[0] {
            kinds::NONE..=BOOL | NAME | SUFFIX => row[END] == row[2],
            ATTRIBUTE => self.last_end(row, 1) == Some(row[END]),
            ARRAY => self.is_closed(row, 0, words::RBOX),
            HASH => self.is_closed(row, 0, words::RBRACE),
            INDEX => self.is_closed(row, 1, words::RBOX),
            CALL => self.is_closed(row, 1, words::RPAREN),
            INFIX | LAMBDA | PAIR | ASSERT => self.is_left(row, 1),
            PREFIX | SHELL | CONST | THROW | EXPRESSION => self.is_left(row, 0),
            VAR | RETURN if row[CHILDREN][0] != 0 => self.is_left(row, 0),
            VAR | RETURN | BREAK | CONTINUE => {
                row[END] == row[2] + 1 && self.token(row[END]) == words::SEMICOLON
            }
            BLOCK => self.token(row[END]) == words::RBRACE,
            kind => {
                let ends =
                    blocks_of(kind).iter().filter_map(|&(slot, ..)| self.last_end(row, slot));
                ends.last() == Some(row[END])
            }
        }
    }

    fn token(&self, place: u32) -> u16 {
        self.tokens[place as usize]
    }

    /// From one place on up to another there are only tokens that may stand behind a part.
    fn are_behind(&self, from: u32, to: u32) -> bool {
        let between = self.tokens.get(from as usize..to as usize);
        between.is_some_and(|between| between.iter().all(|word| BEHIND.contains(word)))
    }

    /// A row that ends where the reader of its last part left off.
    fn is_left(&self, row: &[u32], slot: usize) -> bool {
        self.last_end(row, slot).is_some_and(|end| self.are_behind(end + 1, row[END] + 1))
    }

    /// A row that ends at its closer: right behind its opener, or behind its last part. There a call
    /// takes any token, and EOF again and again.
    fn is_closed(&self, row: &[u32], slot: usize, closer: u16) -> bool {
        let (found, takes_any) = (self.token(row[END]), row[0] == CALL);
        match self.last_end(row, slot) {
            None => row[END] == row[2] + 1 && found == closer,
            Some(end) if end == row[END] => takes_any && found == words::EOF,
            Some(end) => (takes_any || found == closer) && self.are_behind(end + 1, row[END]),
        }
    }
}

#[cfg(test)]
mod tests {
    use super::*;
    use crate::examples;
    use crate::gen::{cases, enough, Kind, Rows, Wish};
    use crate::model::Mode;
    use crate::text;
    use std::collections::BTreeSet;

    /// The accepted cases of every kind of arrays that are read to some length, with their answers.
    fn accepted(count: usize) -> impl Iterator<Item = (Case, Answer)> {
        let kinds = [Kind::Valid, Kind::Damaged, Kind::Loose, Kind::Chains, Kind::Nesting];
        let wishes = kinds.into_iter().flat_map(move |kind| {
            let wish = Wish { count: Some(count), ..Wish::of(kind, 8) };
            [wish, Wish { mode: Mode::Strict, rows: Rows::Edge, ..wish }]
        });
        let answered = |case: Case| (case.answer(), case);
        let answers = wishes.flat_map(|wish| cases(&wish)).map(answered);
        answers.filter(|(answer, _)| answer.words[0] == 0).map(|(answer, case)| (case, answer))
    }

    #[test]
    fn ends_keep_the_laws_and_fit_the_tokens() {
        let mut met = BTreeSet::new();
        for (case, answer) in accepted(400) {
            assert_eq!(misplaced(&case, &answer), None, "{:?}", case);
            met.extend(answer.rows.chunks(ROW).map(|row| row[0]));
        }
        assert_eq!(met.len(), kinds::ALL.len());
    }

    #[test]
    fn a_row_ends_where_it_is_lacking() {
        let mut rows = 0;
        for (case, answer) in accepted(60) {
            assert_eq!(unlike_refusals(&case, &answer), None, "{:?}", case);
            rows += answer.rows.len() / ROW;
        }
        assert!(rows > 4000, "{} rows", rows);
    }

    #[test]
    fn each_other_end_is_noticed() {
        for example in examples::ends().unwrap() {
            let (case, answer) = (&example.case, example.case.answer());
            for index in (END..answer.rows.len()).step_by(ROW) {
                for change in [1, u32::MAX] {
                    let mut other = answer.clone();
                    other.rows[index] = other.rows[index].wrapping_add(change);
                    assert!(unlike_refusals(case, &other).is_some(), "{:?}", other.rows);
                }
            }
        }
    }

    /// Rows of which only place and end are given.
    fn rows_of(spans: &[(u32, u32)]) -> Vec<u32> {
        let row = |&(place, end): &(u32, u32)| [0, 0, place, 0, 0, 0, 0, 0, end];
        spans.iter().flat_map(row).collect()
    }

    #[test]
    fn each_law_is_one() {
        let first_bad = |spans| unlawful(&rows_of(spans), 3, 9);
        assert_eq!(first_bad(&[(3, 3), (4, 5), (3, 5), (9, 9)]), None);
        assert_eq!(first_bad(&[(3, 3), (2, 5)]), Some(1));
        assert_eq!(first_bad(&[(3, 3), (5, 4)]), Some(1));
        assert_eq!(first_bad(&[(3, 6), (4, 5)]), Some(1));
        assert_eq!(first_bad(&[(3, 6), (4, 10)]), Some(1));
    }

    /// Other ends for rows of a text, by reference; each rule of a kind alone can tell that some are wrong.
    type Wrong = (Entry, &'static str, &'static [(usize, u32)]);

    const WRONG: [Wrong; 18] = [
        (Entry::Statement, "a ;", &[(1, 1)]),
        (Entry::Statement, "a ;", &[(2, 2)]),
        (Entry::Statement, "a . b . c ;", &[(4, 2)]),
        (Entry::Statement, "a . b . c ;", &[(4, 5)]),
        (Entry::Script, "a ++ ; b ;", &[(2, 2), (3, 2)]),
        (Entry::Statement, "[ a + b , c ] ;", &[(3, 4)]),
        (Entry::Statement, "f ( a + b c ) ;", &[(4, 5)]),
        (Entry::Statement, "[ a , b ; ] ;", &[(3, 4), (4, 4)]),
        (Entry::Statement, "[ a , [ ] ] ;", &[(2, 5)]),
        (Entry::Statement, "f ( a b", &[(3, 2), (4, 2)]),
        (Entry::Statement, "f ( ) ;", &[(2, 1)]),
        (Entry::Statement, "{ a : b , c : d ; }", &[(4, 4)]),
        (Entry::Script, "var x ; a ;", &[(1, 1)]),
        (Entry::Script, "var x ; a ;", &[(1, 3)]),
        (Entry::Statement, "if ( a ) { } else { }", &[(4, 5)]),
        (Entry::Statement, "while ( a ) { b ; }", &[(4, 6), (5, 6)]),
        (Entry::Script, "while ( a ) { b ; } c ;", &[(5, 8)]),
        (Entry::Script, "a ;", &[(3, 1)]),
    ];

    #[test]
    fn an_end_that_does_not_fit_is_noticed() {
        for (entry, text, changes) in WRONG {
            let tokens = text::to_words(text).unwrap().concat();
            let case = Case::old(entry, 0, enough(&tokens), tokens);
            let mut answer = case.answer();
            assert_eq!(misplaced(&case, &answer), None, "{}", text);
            for &(reference, end) in changes {
                answer.rows[(reference - 1) * ROW + END] = end;
            }
            assert!(misplaced(&case, &answer).is_some(), "{}: {:?}", text, changes);
        }
    }
}
