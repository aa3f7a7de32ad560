//! Compares a stream of answers from another program with the model's, case by case.
use crate::batch::{self, Answer, Case};
use crate::model::{Entry, Mode, Row};
use crate::text;
use std::io::{self, Read};

/// How many differing cases are printed in full.
pub const SHOWN: usize = 20;

/// How many of a case's differing rows are printed.
const ROWS_SHOWN: usize = 3;

/// Prints the cases where `answers` differ from the model, and gives how many do.
pub fn compare(cases: &mut impl Read, answers: &mut impl Read) -> io::Result<usize> {
    let (mut compared, mut differing) = (0, 0);
    while let Some(case) = batch::read_case(cases)? {
        let given = batch::read_answer(answers)?;
        let own = case.answer();
        if given.as_ref() != Some(&own) {
            differing += 1;
            if differing <= SHOWN {
                println!("case {}: {}", compared, describe(&case));
                println!("  model: {}", summary(&own));
                println!("  given: {}", given.as_ref().map_or("nothing".into(), summary));
                if let Some(given) = given {
                    show_rows(&own, &given);
                }
            }
        }
        compared += 1;
    }
    if batch::read_answer(answers)?.is_some() {
        println!("there are more answers than cases");
        differing += 1;
    }
    println!("{} compared, {} differing", compared, differing);
    Ok(differing)
}

/// The letter of an entry: X one expression, S one statement, W the whole script.
pub fn letter(entry: Entry) -> char {
    ['X', 'S', 'W'][entry as usize]
}

/// A case for people, its tokens in the text form.
pub fn describe(case: &Case) -> String {
    format!(
        "{}{} start {}, pool {} words, {} tokens: {}",
        if case.mode == Mode::Strict { "strict " } else { "" },
        letter(case.entry),
        case.start,
        case.pool,
        case.tokens.len(),
        text::of_words(&case.tokens)
    )
}

/// An answer's first line, as the printing program would write it.
pub fn summary(answer: &Answer) -> String {
    let [first, second, third, fourth] = answer.words;
    let clean = if answer.clean == 1 { "" } else { "; pool not zero behind" };
    if first == 0 {
        format!("ok {} {} {}{}", second, third, fourth, clean)
    } else if third == 0 && fourth == 0 {
        format!("no {} {}{}", first, second, clean)
    } else {
        format!("no {} {}, then {} {}{}", first, second, third, fourth, clean)
    }
}

/// The first rows that differ, by row number.
fn show_rows(own: &Answer, given: &Answer) {
    let (own, given) = (own.row_arrays(), given.row_arrays());
    let rows = (0..own.len().max(given.len())).map(|row| (row, own.get(row), given.get(row)));
    for (row, own, given) in rows.filter(|(_, own, given)| own != given).take(ROWS_SHOWN) {
        println!("  row {}: model {}, given {}", row, words_of(own), words_of(given));
    }
}

/// A row's words as the printing program writes them.
pub fn words_of(row: Option<&Row>) -> String {
    let words = |row: &Row| row.map(|word| word.to_string()).join(" ");
    row.map_or("none".into(), words)
}

#[cfg(test)]
mod tests {
    use super::*;
    use crate::gen::{cases, Kind, Wish};

    /// A batch, and the model's answers with `change` made to one of them.
    fn streams(change: impl Fn(&mut Answer)) -> (Vec<u8>, Vec<u8>) {
        let (mut batch, mut answers) = (vec![], vec![]);
        let wish = Wish { count: Some(40), ..Wish::of(Kind::Valid, 3) };
        for (number, case) in cases(&wish).enumerate() {
            batch::write_case(&mut batch, &case).unwrap();
            let mut answer = case.answer();
            if number == 7 {
                change(&mut answer);
            }
            batch::write_answer(&mut answers, &answer).unwrap();
        }
        (batch, answers)
    }

    fn differing(change: impl Fn(&mut Answer)) -> usize {
        let (batch, answers) = streams(change);
        compare(&mut &batch[..], &mut &answers[..]).unwrap()
    }

    #[test]
    fn equal_answers_are_equal() {
        assert_eq!(differing(|_| ()), 0);
    }

    #[test]
    fn each_changed_word_is_noticed() {
        assert_eq!(differing(|answer| answer.words[3] += 1), 1);
        assert_eq!(differing(|answer| answer.clean ^= 1), 1);
        assert_eq!(differing(|answer| *answer.rows.last_mut().unwrap() += 1), 1);
    }

    #[test]
    fn missing_answers_are_noticed() {
        let (batch, _) = streams(|_| ());
        assert_eq!(compare(&mut &batch[..], &mut &[][..]).unwrap(), 40);
    }
}
