//! Records: cases with the model's answers, for the program that retraces them; and the written
//! forms in them as cases for a reader.
use super::case::Case;
use super::judge::{judge, Form, Judged};
use super::tally::Tally;
use crate::batch;
use crate::gen;
use crate::model::{Entry, Mode, MOST_ROWS, ROW};
use crate::questions::Question;
use std::io::{self, Read, Write};

impl Question for Case {
    type Judged = Judged;
    type Tally = Tally;

    fn judge(&self) -> Result<Judged, String> {
        judge(self)
    }

    fn pool(&self) -> &[u32] {
        &self.pool
    }

    fn recorded(&self, judged: &Judged) -> Vec<u8> {
        recorded(self, judged)
    }

    fn count(tally: &mut Tally, judged: &Judged) {
        tally.count(judged)
    }
}

/// A head is the root; the lengths of the pool and of the two slices; the number and place of the
/// answer; and the entry that reads what is written.
const HEAD: usize = 7;
const POOL: usize = 1;
const NUMBER: usize = 4;
const COUNT: usize = 5;
const ENTRY: usize = 6;

fn head(case: &Case, judged: &Judged, form: Option<&Form>) -> [u32; HEAD] {
    let [pool, words, places] =
        [case.pool.len(), case.words, case.places].map(|length| length as u32);
    let entry = form.map_or(0, |form| form.entry as u32);
    [case.root as u32, pool, words, places, judged.number, judged.place as u32, entry]
}

/// A case and its answer: the head, the pool's words, and if there are any the written words of two
/// bytes, and their places.
fn recorded(case: &Case, judged: &Judged) -> Vec<u8> {
    let form = judged.form.as_ref().filter(|_| judged.number == 0);
    let mut bytes = vec![];
    for word in head(case, judged, form).iter().chain(&case.pool) {
        bytes.extend(word.to_le_bytes());
    }
    if let Some(form) = form {
        form.written.words.iter().for_each(|word| bytes.extend(word.to_le_bytes()));
        form.written.places.iter().for_each(|place| bytes.extend(place.to_le_bytes()));
    }
    bytes
}

/// The most tokens of a case in a batch.
pub const MOST_IN_BATCH: usize = u16::MAX as usize;

/// Writes what the records of a stream have written as a batch of cases for a reader, each by its
/// entry in the given mode; but forms that are too long for a batch.
pub fn forms(records: &mut impl Read, to: &mut impl Write, mode: Mode) -> io::Result<()> {
    let mut bytes = [0; 4 * HEAD];
    while batch::fill(records, &mut bytes)? {
        let head = batch::fulls(&bytes);
        batch::fill_rest(records, 4 * head[POOL] as usize)?;
        if head[NUMBER] != 0 {
            continue;
        }
        let count = head[COUNT] as usize;
        let tokens = batch::halves(&batch::fill_rest(records, 2 * count)?);
        batch::fill_rest(records, 4 * count)?;
        if count <= MOST_IN_BATCH {
            let entry = [Entry::Expression, Entry::Statement, Entry::Script][head[ENTRY] as usize];
            let pool = gen::enough(&tokens).min((MOST_ROWS + 1) * ROW);
            batch::write_case(to, &batch::Case { entry, mode, start: 0, pool, tokens })?;
        }
    }
    to.flush()
}

#[cfg(test)]
mod tests {
    use super::*;
    use crate::questions::record;
    use crate::record::Choice;
    use crate::trees::examples::pool_of;

    /// The record of a case.
    fn of(rows: &str, root: usize, room: usize) -> Vec<u8> {
        let case = Case { words: room, ..Case::roomy(pool_of(rows), root) };
        recorded(&case, &judge(&case).unwrap())
    }

    /// A record's head, and what is behind it.
    fn taken(bytes: &[u8]) -> (Vec<u32>, &[u8]) {
        (batch::fulls(&bytes[..4 * HEAD]), &bytes[4 * HEAD..])
    }

    #[test]
    fn a_record_has_all_that_is_to_be_compared() {
        let bytes = of("2 0 5 0 0 0 0 0 7/13 2 0 1", 2, 9);
        let (head, rest) = taken(&bytes);
        assert_eq!(head, [2, 2 * ROW as u32, 9, head[3], 0, 5, 0]);
        let (pool, rest) = rest.split_at(4 * 2 * ROW);
        assert_eq!(batch::fulls(pool), pool_of("2 0 5 0 0 0 0 0 7/13 2 0 1"));
        assert_eq!(batch::halves(&rest[..10]), [0x805, 0x80E, 0x700, 0x806, 0x200]);
        assert_eq!(batch::fulls(&rest[10..]), [0, 0, 5, 0, 0]);
    }

    #[test]
    fn refused_cases_have_only_their_pool() {
        for (rows, number, place) in [("2 0 5/13 2 0 1", 32, 0), ("2/2 0 0 1", 38, 2)] {
            let bytes = of(rows, 2, 4);
            let (head, rest) = taken(&bytes);
            assert_eq!((&head[NUMBER..], rest.len()), (&[number, place, 0][..], 4 * 2 * ROW));
        }
    }

    #[test]
    fn some_are_left_out() {
        let cases = || (1..=10).map(|rows| Case::roomy(pool_of(&vec!["2"; rows].join("/")), 1));
        let written = |choice: &Choice| {
            let mut bytes = vec![];
            record(cases(), &mut bytes, choice).unwrap().unwrap();
            bytes.len()
        };
        let size = |rows: usize| 4 * HEAD + 4 * ROW * rows + 2 * (2 + 4);
        assert_eq!(written(&Choice { every: 4, most: usize::MAX }), size(1) + size(5) + size(9));
        let without_ends = |rows: usize| size(rows) - 4 * rows;
        assert_eq!(written(&Choice { every: 1, most: without_ends(2) }), size(1) + size(2));
        assert_eq!(written(&Choice { every: 1, most: without_ends(2) - 1 }), size(1));
    }

    #[test]
    fn written_forms_are_cases_for_a_reader() {
        let stream =
            [of("34 0 1", 1, 9), of("46 256", 1, 9), of("46", 1, 0), of("46", 1, 1)].concat();
        let mut batch = vec![];
        forms(&mut &stream[..], &mut batch, Mode::Strict).unwrap();
        let mut rest = &batch[..];
        let mut next = || batch::read_case(&mut rest).unwrap();
        let (first, second) = (next().unwrap(), next().unwrap());
        assert_eq!((first.entry, first.mode), (Entry::Statement, Mode::Strict));
        assert_eq!(first.tokens, [0x908, 0x700, 0x80B, 0x200]);
        assert_eq!((second.entry, second.tokens), (Entry::Script, vec![0x200]));
        assert!(next().is_none());
    }
}
