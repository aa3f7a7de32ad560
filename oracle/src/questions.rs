//! Questions that are recorded with their answers: which of them, and what came of all.
use crate::record::Choice;
use crate::{number, wrong};
use std::fmt;
use std::io::{self, Write};

/// A question about a pool whose answer is found in more than one way.
pub trait Question: fmt::Display {
    type Judged;
    type Tally: Default;

    /// The answer; or in what two ways of finding it differ.
    fn judge(&self) -> Result<Self::Judged, String>;

    /// The words of its pool.
    fn pool(&self) -> &[u32];

    /// The bytes of the question and its answer.
    fn recorded(&self, judged: &Self::Judged) -> Vec<u8>;

    fn count(tally: &mut Self::Tally, judged: &Self::Judged);
}

/// Writes the chosen questions with their answers and gives the counts; or says in which question two
/// ways of finding the answer differ.
pub fn record<Q: Question>(
    questions: impl Iterator<Item = Q>,
    to: &mut impl Write,
    choice: &Choice,
) -> io::Result<Result<Q::Tally, String>> {
    let mut tally = Q::Tally::default();
    for (number, question) in questions.enumerate().step_by(choice.every) {
        let judged = match question.judge() {
            Ok(judged) => judged,
            Err(what) => {
                return Ok(Err(format!("case {} differs: {}\n  {}", number, question, what)))
            }
        };
        let bytes = question.recorded(&judged);
        if choice.takes(bytes.len(), question.pool().len()) {
            Q::count(&mut tally, &judged);
            to.write_all(&bytes)?;
        }
    }
    to.flush()?;
    Ok(Ok(tally))
}

/// Which questions of a kind are wanted: a seed, how many, and which of them are recorded.
pub struct Wanted {
    pub seed: u64,
    pub count: Option<usize>,
    pub choice: Choice,
}

impl Wanted {
    /// What the options of a command say.
    pub fn of(options: &[String], usage: &str) -> io::Result<Wanted> {
        let mut wanted = Wanted { seed: 1, count: None, choice: Choice::default() };
        for pair in options.chunks(2) {
            match pair {
                [option, value] if option == "--seed" => wanted.seed = number(option, value)?,
                [option, value] if option == "--count" => {
                    wanted.count = Some(number(option, value)?)
                }
                pair if wanted.choice.take(pair)? => (),
                _ => return Err(wrong(format!("unknown option {}\n{}", pair.join(" "), usage))),
            }
        }
        Ok(wanted)
    }
}
