//! One case by model and original: whether the original gives the model's answer.
use crate::batch::{Answer, Case};
use crate::compare::summary;
use crate::ends;
use crate::gen;
use crate::kinds;
use crate::model::{Mode, Row, CHILDREN, END, NO_ROW, ROW, WRONG_SIGN};
use crate::original::{self, Outcome, UNKNOWN};
use crate::places;
use crate::signs;

/// The refusals that the original doesn't know.
pub const OURS: [u32; 5] = [1, 2, 3, 4, WRONG_SIGN];

/// Whether the original can't give an answer with this number. In the old mode no sign is wrong.
fn is_ours(case: &Case, number: u32) -> bool {
    OURS.contains(&number) && (number != WRONG_SIGN || case.mode == Mode::Strict)
}

/// Whether model and original differ, with both answers; None where only the model can answer. In
/// strict mode the answer is first held to the model's in the old mode.
pub fn difference(case: &Case, answer: &Answer) -> Option<Result<(), String>> {
    if case.mode == Mode::Strict {
        let old = case.clone().by(Mode::Old).answer();
        if let Some(what) = unlike_old(case, answer, &old) {
            let told = format!("strict {}, old {}: {}", summary(answer), summary(&old), what);
            return Some(Err(told));
        }
    }
    if is_ours(case, answer.words[0]) {
        return None;
    }
    let outcome = original::run(case);
    let misplaced = || places::misplaced(case, answer).or_else(|| ends::misplaced(case, answer));
    let found = unlike(answer, &outcome).or_else(misplaced);
    let told = |what| format!("model {}, original {}: {}", summary(answer), outcome, what);
    Some(found.map_or(Ok(()), |what| Err(told(what))))
}

/// Of a case that is refused for want of a row: the model's answer with rows enough is held to the
/// original's, and the refusal to it. None for other cases, and where only the model can answer.
pub fn difference_with_rows(
    case: &Case,
    answer: &Answer,
    model: impl Fn(&Case) -> Answer,
) -> Option<Result<(), String>> {
    if answer.words[0] != NO_ROW {
        return None;
    }
    let roomy = Case { pool: gen::enough(&case.tokens), ..case.clone() };
    let whole = model(&roomy);
    if !starves(case, answer.words[1], &whole) {
        let told = format!("model {}, with rows enough {}", summary(answer), summary(&whole));
        return Some(Err(told));
    }
    let verdict = difference(&roomy, &whole)?;
    Some(verdict.map_err(|what| format!("with rows enough: {}", what)))
}

/// A case may lack a row at `place` if with rows enough it takes more than it has, or is refused,
/// and neither ends before that place.
fn starves(case: &Case, place: u32, whole: &Answer) -> bool {
    match whole.words {
        [0, _, rows, end] => rows as usize > case.pool / ROW && place <= end,
        [number, end, ..] => number != NO_ROW && place <= end,
    }
}

/// In what a strict answer doesn't go with that of the old mode: it must be the same, or a refusal
/// for a wrong sign where the old mode goes on. Where that accepts, the brackets tell which.
fn unlike_old(case: &Case, answer: &Answer, old: &Answer) -> Option<&'static str> {
    let (accepted, end) = ends(old);
    let refused = answer.words[0] == WRONG_SIGN;
    if !refused && answer != old {
        return Some("neither the same nor a wrong sign");
    }
    let place = answer.words[1];
    if refused && !(place < end && signs::may_be_missing(case, place as usize)) {
        return Some("no sign is missing there");
    }
    if accepted && refused == signs::are_there(case, old) {
        return Some("the brackets say otherwise");
    }
    None
}

/// Whether an answer is an acceptance, and the place where reading ended.
fn ends(answer: &Answer) -> (bool, u32) {
    match answer.words {
        [0, _, _, end] => (true, end),
        [_, end, ..] => (false, end),
    }
}

/// The first thing in which the original's answer isn't the model's.
fn unlike(answer: &Answer, outcome: &Outcome) -> Option<String> {
    if answer.words != outcome.words() {
        return Some("other answers".into());
    }
    if answer.clean != 1 {
        return Some("words behind the rows that aren't zero".into());
    }
    let mut pairs = answer.rows.chunks(ROW).zip(outcome.rows()).enumerate();
    let (number, (own, row)) = pairs.find(|(_, (own, row))| !same_row(own, row))?;
    Some(format!("row {}: model {:?}, original {:?}", number, own, row))
}

/// Rows agree in all that the original's tree holds; it has no ends.
fn same_row(own: &[u32], row: &Row) -> bool {
    own[0] == row[0]
        && own[1] % kinds::GROUPED == row[1]
        && (row[2] == UNKNOWN || own[2] == row[2])
        && own[CHILDREN.start..END] == row[CHILDREN.start..END]
}

#[cfg(test)]
mod tests {
    use super::*;
    use crate::model::Entry;
    use crate::text;
    use crate::words::{EOF, IDENTIFIER, PLUS};

    /// A statement with plenty of rows.
    fn case(text: &str) -> Case {
        let tokens = text::to_words(text).unwrap().concat();
        Case::old(Entry::Statement, 0, gen::enough(&tokens), tokens)
    }

    #[test]
    fn every_changed_word_of_an_answer_is_noticed() {
        for text in ["var x = f ( a , ( b ) ) - c * d [ 1 ] ;", "while ( a ) { b . c ++ ; }"] {
            let (case, answer) = (case(text), case(text).answer());
            assert_eq!(difference(&case, &answer), Some(Ok(())));
            // Other ends are noticed where rows are lacking: `ends` has a test of that.
            for index in (0..answer.rows.len()).filter(|index| index % ROW != END) {
                let mut other = answer.clone();
                other.rows[index] ^= 1;
                let noticed = difference(&case, &other).unwrap().is_err();
                assert!(noticed, "{}: word {} of {:?}", text, index, answer.rows);
            }
        }
    }

    #[test]
    fn another_refusal_is_noticed() {
        let (case, answer) = (case("var x ("), case("var x (").answer());
        assert_eq!(answer.words, [20, 2, 0, 0]);
        assert_eq!(difference(&case, &answer), Some(Ok(())));
        for (index, number) in [(0, 0), (0, 12), (0, 99), (1, 1), (2, 1), (3, 1)] {
            let mut other = answer.clone();
            other.words[index] = number;
            assert!(difference(&case, &other).unwrap().is_err(), "{:?}", other.words);
        }
    }

    /// What comes of a strict answer to a case, of which only the words are given.
    fn judged(case: &Case, words: [u32; 4]) -> Option<Result<(), String>> {
        let strict = case.clone().by(Mode::Strict);
        difference(&strict, &Answer { words, clean: 1, rows: vec![] })
    }

    #[test]
    fn a_strict_answer_is_the_old_one_or_a_wrong_sign() {
        for text in ["f ( a ) ;", "while ( a ) { }", "f ( a , )", "while ( a b", "_EOF a"] {
            let case = case(text);
            let verdict = difference(&case.clone().by(Mode::Strict), &case.answer());
            assert_eq!(verdict.unwrap_or(Ok(())), Ok(()), "{}", text);
            for words in [[WRONG_SIGN, 0, 0, 0], [11, 0, 0, 0], [2, 0, 0, 0]] {
                assert!(judged(&case, words).unwrap().is_err(), "{} {:?}", text, words);
            }
        }
    }

    #[test]
    fn a_wrong_sign_must_be_refused_where_the_old_mode_goes_on() {
        let texts = [("f ( a b", 2), ("while ( a ) b }", 3), ("while ( a ) { f ( a } }", 7)];
        for (text, place) in texts {
            let case = case(text);
            assert_eq!(judged(&case, [WRONG_SIGN, place, 0, 0]), None);
            let accepted = case.answer();
            assert!(difference(&case.clone().by(Mode::Strict), &accepted).unwrap().is_err());
            let end = accepted.words[3];
            for place in [0, end, end + 1] {
                let verdict = judged(&case, [WRONG_SIGN, place, 0, 0]);
                assert!(verdict.unwrap().is_err(), "{} at {}", text, place);
            }
        }
        let old = Answer { words: [WRONG_SIGN, 2, 0, 0], clean: 1, rows: vec![] };
        assert!(difference(&case("f ( a b"), &old).unwrap().is_err());
        // In a group the old mode doesn't go on either.
        assert!(judged(&case("( a b"), [WRONG_SIGN, 1, 0, 0]).unwrap().is_err());
    }

    #[test]
    fn two_wrong_signs_can_make_brackets_that_nest() {
        let case = case("try { f ( a { ; } catch e { } finally ) b }");
        assert_eq!(judged(&case, [WRONG_SIGN, 4, 0, 0]), None);
        let (strict, old) = (case.clone().by(Mode::Strict), case.answer());
        assert_eq!(old.words[0], 0);
        assert!(difference(&strict, &old).unwrap().is_err());
    }

    /// `a + b` with so many rows of the three that it takes.
    fn sum(rows: usize) -> Case {
        let tokens = vec![IDENTIFIER, PLUS, IDENTIFIER, EOF];
        Case::old(Entry::Expression, 0, rows * ROW, tokens)
    }

    #[test]
    fn want_of_a_row_is_held_to_the_original() {
        let few = sum(2).answer();
        assert_eq!(few.words, [NO_ROW, 2, 0, 0]);
        assert_eq!(difference(&sum(2), &few), None);
        assert_eq!(difference_with_rows(&sum(2), &few, Case::answer), Some(Ok(())));
        // With three rows it may not be refused, and never behind its end.
        assert!(difference_with_rows(&sum(3), &few, Case::answer).unwrap().is_err());
        let late = Answer { words: [NO_ROW, 4, 0, 0], ..few.clone() };
        assert!(difference_with_rows(&sum(2), &late, Case::answer).unwrap().is_err());
        // Nor may the answer with rows enough be another than the original's.
        let wrong = |case: &Case| {
            let mut answer = case.answer();
            answer.rows[0] += 1;
            answer
        };
        assert!(difference_with_rows(&sum(2), &few, wrong).unwrap().is_err());
    }
}
