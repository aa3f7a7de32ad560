//! Records: cases, each followed by the model's answer, for a program that replays them. The original
//! is asked too, and where it differs the recording stops.
use crate::batch::{self, Answer, Case};
use crate::compare::describe;
use crate::judge::{self, OURS};
use crate::model::{Mode, ROW};
use crate::signs::Missing;
use crate::{number, wrong};
use std::collections::BTreeMap;
use std::fmt;
use std::io::{self, Read, Write};

/// Which cases of a batch are recorded.
pub struct Choice {
    /// Every so many cases one, from the first on.
    pub every: usize,
    /// Records of more bytes are left out, the ends of rows not counted.
    pub most: usize,
}

impl Default for Choice {
    fn default() -> Choice {
        Choice { every: 1, most: usize::MAX }
    }
}

/// The bytes of a word in a record, and so of a row's end.
const WORD: usize = 4;

impl Choice {
    /// Takes an option that is about the choice, with its value; false if it is another.
    pub fn take(&mut self, pair: &[String]) -> io::Result<bool> {
        match pair {
            [option, value] if option == "--every" => self.every = number(option, value)?,
            [option, value] if option == "--most" => self.most = number(option, value)?,
            _ => return Ok(false),
        }
        if self.every == 0 {
            return Err(wrong("--every wants a number above 0".into()));
        }
        Ok(true)
    }

    /// Whether a record of so many bytes, so many words of rows among them, isn't too long.
    pub fn takes(&self, bytes: usize, words: usize) -> bool {
        bytes - WORD * (words / ROW) <= self.most
    }
}

/// How many answers were recorded, by who gives them.
#[derive(Debug, Default, PartialEq)]
pub struct Tally {
    /// Those that the original gives too.
    both: usize,
    /// The others, by number: refusals that the original doesn't know.
    alone: BTreeMap<u32, usize>,
    /// Of all, those in strict mode; and the refusals for a wrong sign, by form.
    strict: usize,
    missing: Missing,
    /// Of the refusals for want of a row: with rows enough the original gives the model's answer.
    roomy: usize,
}

/// Writes the chosen cases of a batch with the model's answers and gives the counts; or says in which
/// case model and original differ.
pub fn record(
    cases: &mut impl Read,
    to: &mut impl Write,
    choice: &Choice,
    model: impl Fn(&Case) -> Answer,
) -> io::Result<Result<Tally, String>> {
    let mut tally = Tally::default();
    let mut number = 0;
    while let Some(case) = batch::read_case(cases)? {
        if number % choice.every == 0 {
            let answer = model(&case);
            let bytes = recorded(&case, &answer)?;
            if choice.takes(bytes.len(), answer.rows.len()) {
                if let Err(what) = tally.count(&case, &answer, &model) {
                    let told = format!("case {} differs: {}\n  {}", number, describe(&case), what);
                    return Ok(Err(told));
                }
                to.write_all(&bytes)?;
            }
        }
        number += 1;
    }
    to.flush()?;
    Ok(Ok(tally))
}

/// A case and its answer, one behind the other.
fn recorded(case: &Case, answer: &Answer) -> io::Result<Vec<u8>> {
    let mut bytes = vec![];
    batch::write_case(&mut bytes, case)?;
    batch::write_answer(&mut bytes, answer)?;
    Ok(bytes)
}

impl Tally {
    /// Asks the original about a case and counts the answer; or says how the two differ.
    fn count(
        &mut self,
        case: &Case,
        answer: &Answer,
        model: impl Fn(&Case) -> Answer,
    ) -> Result<(), String> {
        self.strict += (case.mode == Mode::Strict) as usize;
        if let Some(verdict) = judge::difference(case, answer) {
            self.both += 1;
            return verdict;
        }
        *self.alone.entry(answer.words[0]).or_default() += 1;
        self.missing.count(case, answer);
        if let Some(verdict) = judge::difference_with_rows(case, answer, model) {
            self.roomy += 1;
            return verdict;
        }
        Ok(())
    }
}

impl fmt::Display for Tally {
    fn fmt(&self, to: &mut fmt::Formatter) -> fmt::Result {
        let alone: usize = self.alone.values().sum();
        let count = |number: u32| self.alone.get(&number).unwrap_or(&0);
        let by_number = OURS.map(|number| format!("{}: {}", number, count(number)));
        write!(
            to,
            "{} recorded, {} strict, {} by model and original, {} by the model alone ({}), \
             {} with rows enough, wrong signs by form ({})",
            self.both + alone,
            self.strict,
            self.both,
            alone,
            by_number.join(", "),
            self.roomy,
            self.missing
        )
    }
}

#[cfg(test)]
mod tests {
    use super::*;
    use crate::gen::{cases, Kind, Rows, Wish};

    fn batch_of(wish: &Wish) -> Vec<u8> {
        let mut bytes = vec![];
        for case in cases(wish) {
            batch::write_case(&mut bytes, &case).unwrap();
        }
        bytes
    }

    const VALID: Wish =
        Wish { kind: Kind::Valid, seed: 2, count: Some(30), rows: Rows::Plenty, mode: Mode::Old };

    /// The sizes of the records: all bytes, and those that count.
    fn sizes(choice: &Choice) -> Vec<(usize, usize)> {
        let mut bytes = vec![];
        record(&mut &batch_of(&VALID)[..], &mut bytes, choice, Case::answer).unwrap().unwrap();
        let mut rest = &bytes[..];
        let mut sizes = vec![];
        while let Some(case) = batch::read_case(&mut rest).unwrap() {
            let answer = batch::read_answer(&mut rest).unwrap().unwrap();
            assert_eq!(answer, case.answer());
            let bytes = recorded(&case, &answer).unwrap().len();
            sizes.push((bytes, bytes - 4 * answer.row_arrays().len()));
        }
        sizes
    }

    #[test]
    fn each_case_is_followed_by_its_answer() {
        assert_eq!(sizes(&Choice::default()).len(), 30);
    }

    #[test]
    fn some_are_left_out() {
        let all = sizes(&Choice::default());
        let every = sizes(&Choice { every: 7, most: usize::MAX });
        assert_eq!(every, all.iter().copied().step_by(7).collect::<Vec<_>>());
        // The most that is taken is what just one of them has, without the ends of its rows.
        for (bytes, most) in all.clone() {
            let small = sizes(&Choice { every: 1, most });
            let taken = all.iter().copied().filter(|&(_, counted)| counted <= most);
            assert_eq!(small, taken.collect::<Vec<_>>());
            assert!(small.contains(&(bytes, most)) && bytes >= most);
        }
        assert!(all.iter().any(|(bytes, counted)| bytes > counted));
    }

    /// What comes of recording with a model whose answers `change` changes, and how many bytes.
    fn changed(wish: &Wish, change: impl Fn(&Case, &mut Answer)) -> (Result<Tally, String>, usize) {
        let model = |case: &Case| {
            let mut answer = case.answer();
            change(case, &mut answer);
            answer
        };
        let mut bytes = vec![];
        let came = record(&mut &batch_of(wish)[..], &mut bytes, &Choice::default(), model).unwrap();
        (came, bytes.len())
    }

    #[test]
    fn a_model_that_differs_stops_it() {
        let (whole, all) = changed(&VALID, |_, _| ());
        assert_eq!(whole.unwrap().both, 30);
        let seventh = cases(&VALID).nth(7).unwrap();
        let before: usize = sizes(&Choice::default())[..7].iter().map(|(bytes, _)| bytes).sum();
        let changes: [fn(&mut Answer); 4] = [
            |answer| answer.words[3] += 1,
            |answer| answer.rows[3] += 1,
            |answer| answer.clean = 0,
            |answer| *answer = Answer { words: [12, 1, 0, 0], clean: 1, rows: vec![] },
        ];
        for change in changes {
            let (came, written) = changed(&VALID, |case, answer| {
                if case.tokens == seventh.tokens {
                    change(answer);
                }
            });
            let told = came.unwrap_err();
            assert!(told.starts_with(&format!("case 7 differs: {}\n", describe(&seventh))));
            assert!(told.contains("model ") && told.contains(", original ok "), "{}", told);
            assert!(before == written && written < all);
        }
    }

    #[test]
    fn a_model_that_differs_only_with_rows_enough_stops_it() {
        let few = Wish { rows: Rows::Scarce, ..VALID };
        let (came, _) = changed(&few, |_, _| ());
        let tally = came.unwrap();
        assert!(tally.both > 0 && tally.roomy > 0, "{}", tally);
        let (came, _) = changed(&few, |case, answer| {
            if case.pool == crate::gen::enough(&case.tokens) && answer.words[0] == 0 {
                answer.words[3] += 1;
            }
        });
        assert!(came.unwrap_err().contains("with rows enough"));
    }

    #[test]
    fn what_the_original_does_not_know_is_counted_by_number() {
        let few = Wish { count: Some(600), rows: Rows::Scarce, ..Wish::of(Kind::Mixed, 3) };
        let wish = Wish { mode: Mode::Strict, ..few };
        let (tally, numbers) = crate::on_large_stack(move || {
            let mut numbers = BTreeMap::new();
            for case in cases(&wish) {
                *numbers.entry(case.answer().words[0]).or_insert(0) += 1;
            }
            (changed(&wish, |_, _| ()).0.unwrap(), numbers)
        });
        assert!(OURS.iter().all(|number| tally.alone[number] == numbers[number]));
        assert_eq!(tally.both + tally.alone.values().sum::<usize>(), 600);
        assert!(tally.to_string().starts_with("600 recorded, 600 strict, "));
    }
}
