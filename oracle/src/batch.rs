//! The streams that programs in other languages share with the oracle: cases and answers.
use crate::model::{self, Entry, Mode, Row, MOST_ROWS, ROW};
use std::io::{self, Read, Write};

/// One question: which entry, in which mode, from where, with how large a pool, over which words.
#[derive(Clone, Debug)]
pub struct Case {
    pub entry: Entry,
    pub mode: Mode,
    pub start: usize,
    pub pool: usize,
    pub tokens: Vec<u16>,
}

/// One answer: the answer words, whether all words behind the used rows are zero, and those rows.
#[derive(Clone, Debug, PartialEq)]
pub struct Answer {
    pub words: [u32; 4],
    pub clean: u32,
    pub rows: Vec<u32>,
}

impl Case {
    /// A question in the old mode.
    pub fn old(entry: Entry, start: usize, pool: usize, tokens: Vec<u16>) -> Case {
        Case { entry, mode: Mode::Old, start, pool, tokens }
    }

    /// The same question in another mode.
    pub fn by(self, mode: Mode) -> Case {
        Case { mode, ..self }
    }

    /// The place where reading begins.
    pub fn first_place(&self) -> usize {
        if self.entry == Entry::Script {
            0
        } else {
            self.start
        }
    }

    /// The model's answer, read into a pool that is full of other words at first.
    pub fn answer(&self) -> Answer {
        // Words behind the last possible row are only zeroed, so a few of them are enough.
        let length = self.pool.min((MOST_ROWS + 1) * ROW);
        let mut pool = vec![u32::MAX; length];
        let words = model::read(self.entry, self.mode, self.start, &self.tokens, &mut pool);
        let used = used_words(&words);
        let clean = pool[used..].iter().all(|&word| word == 0) as u32;
        pool.truncate(used);
        Answer { words, clean, rows: pool }
    }
}

impl Answer {
    /// The root's reference; 0 after a refusal.
    pub fn root(&self) -> u32 {
        if self.words[0] == 0 {
            self.words[1]
        } else {
            0
        }
    }

    /// The used rows, each on its own.
    pub fn row_arrays(&self) -> Vec<Row> {
        self.rows.chunks(ROW).map(|row| row.try_into().expect("a chunk is a row")).collect()
    }
}

/// How many pool words an answer's rows take; none after a refusal.
fn used_words(words: &[u32; 4]) -> usize {
    if words[0] == 0 {
        words[2] as usize * ROW
    } else {
        0
    }
}

/// The entries by number, first in the old mode and then in strict mode.
const ENTRIES: [(Entry, Mode); 6] = [
    (Entry::Expression, Mode::Old),
    (Entry::Statement, Mode::Old),
    (Entry::Script, Mode::Old),
    (Entry::Expression, Mode::Strict),
    (Entry::Statement, Mode::Strict),
    (Entry::Script, Mode::Strict),
];

fn entry_of(number: u16) -> io::Result<(Entry, Mode)> {
    let found = ENTRIES.get(number as usize).copied();
    found.ok_or_else(|| malformed("a case has an entry above 5"))
}

fn number_of(case: &Case) -> u16 {
    let found = ENTRIES.iter().position(|&entry| entry == (case.entry, case.mode));
    found.expect("each entry is there in each mode") as u16
}

fn malformed(what: &str) -> io::Error {
    io::Error::new(io::ErrorKind::InvalidData, what)
}

/// Reads `bytes` fully, or gives false if the stream ends before the first byte.
pub fn fill(from: &mut impl Read, bytes: &mut [u8]) -> io::Result<bool> {
    let mut done = 0;
    while done < bytes.len() {
        match from.read(&mut bytes[done..])? {
            0 if done == 0 => return Ok(false),
            0 => return Err(malformed("the stream ends in the middle of a record")),
            count => done += count,
        }
    }
    Ok(true)
}

/// Reads a record's second part, which must be there.
pub fn fill_rest(from: &mut impl Read, length: usize) -> io::Result<Vec<u8>> {
    let mut bytes = vec![0; length];
    if length > 0 && !fill(from, &mut bytes)? {
        return Err(malformed("the stream ends in the middle of a record"));
    }
    Ok(bytes)
}

pub fn halves(bytes: &[u8]) -> Vec<u16> {
    bytes.chunks_exact(2).map(|pair| u16::from_le_bytes([pair[0], pair[1]])).collect()
}

pub fn fulls(bytes: &[u8]) -> Vec<u32> {
    let word = |four: &[u8]| u32::from_le_bytes([four[0], four[1], four[2], four[3]]);
    bytes.chunks_exact(4).map(word).collect()
}

/// The next case of a batch, or None at its end.
pub fn read_case(from: &mut impl Read) -> io::Result<Option<Case>> {
    let mut head = [0; 10];
    if !fill(from, &mut head)? {
        return Ok(None);
    }
    let head = halves(&head);
    let tokens = halves(&fill_rest(from, head[4] as usize * 2)?);
    let (entry, mode) = entry_of(head[0])?;
    let pool = head[2] as usize | (head[3] as usize) << 16;
    Ok(Some(Case { entry, mode, start: head[1] as usize, pool, tokens }))
}

pub fn write_case(to: &mut impl Write, case: &Case) -> io::Result<()> {
    let pool = case.pool as u32;
    let count = u16::try_from(case.tokens.len()).map_err(|_| malformed("too many tokens"))?;
    let head = [number_of(case), case.start as u16, pool as u16, (pool >> 16) as u16, count];
    for word in head.iter().chain(&case.tokens) {
        to.write_all(&word.to_le_bytes())?;
    }
    Ok(())
}

/// The next answer of a stream, or None at its end.
pub fn read_answer(from: &mut impl Read) -> io::Result<Option<Answer>> {
    let mut head = [0; 20];
    if !fill(from, &mut head)? {
        return Ok(None);
    }
    let head = fulls(&head);
    let words = [head[0], head[1], head[2], head[3]];
    if used_words(&words) > MOST_ROWS * ROW {
        return Err(malformed("an answer claims more rows than a pool has"));
    }
    let rows = fulls(&fill_rest(from, used_words(&words) * 4)?);
    Ok(Some(Answer { words, clean: head[4], rows }))
}

pub fn write_answer(to: &mut impl Write, answer: &Answer) -> io::Result<()> {
    for word in answer.words.iter().chain([&answer.clean]).chain(&answer.rows) {
        to.write_all(&word.to_le_bytes())?;
    }
    Ok(())
}

#[cfg(test)]
mod tests {
    use super::*;
    use crate::words::{EOF, IDENTIFIER, PLUS};

    fn sample() -> Case {
        let tokens = vec![IDENTIFIER, PLUS, IDENTIFIER, EOF];
        Case::old(Entry::Expression, 0, 0x1_0003, tokens)
    }

    #[test]
    fn a_case_comes_back() {
        let mut bytes = vec![];
        write_case(&mut bytes, &sample()).unwrap();
        let back = read_case(&mut &bytes[..]).unwrap().unwrap();
        assert_eq!((back.pool, back.tokens), (0x1_0003, sample().tokens));
        assert!(read_case(&mut &bytes[..bytes.len() - 1]).is_err());
    }

    #[test]
    fn every_entry_comes_back_by_its_number() {
        for number in 0..6u16 {
            let (entry, mode) = entry_of(number).unwrap();
            let mut bytes = vec![];
            write_case(&mut bytes, &Case { entry, mode, ..sample() }).unwrap();
            assert_eq!(bytes[..2], number.to_le_bytes());
            let back = read_case(&mut &bytes[..]).unwrap().unwrap();
            assert_eq!((back.entry, back.mode), (entry, mode));
            assert_eq!((entry as u16, mode as u16), (number % 3, number / 3));
        }
        assert!(entry_of(6).is_err());
    }

    #[test]
    fn an_answer_comes_back() {
        let mut bytes = vec![];
        let answer = sample().answer();
        write_answer(&mut bytes, &answer).unwrap();
        assert_eq!(bytes.len(), 4 * (5 + 3 * ROW));
        assert_eq!(read_answer(&mut &bytes[..]).unwrap().unwrap(), answer);
    }
}
