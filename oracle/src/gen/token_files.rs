//! Token files: good ones, ones with bad words, bad fields, cuts and payloads that aren't Unicode,
//! and ones at the limits.
use super::rng::Rng;
use super::{chains, damage, grammar, limits, nesting, payloads};
use crate::files::{examples, field, tagged, CHARACTER, HEAD, MOST_BYTES, MOST_ROWS, TEXTS};
use crate::model::Entry;
use crate::words::{self, *};

/// Endless random files, behind those that are always there.
pub fn files(seed: u64) -> impl Iterator<Item = Vec<u8>> {
    let mut maker = Maker { rng: Rng::new(seed), all: words::all_but_eof() };
    fixed().into_iter().chain(std::iter::repeat_with(move || maker.file()))
}

/// Files of given fields, their free payloads empty.
fn plain(words: &[u16]) -> Vec<u8> {
    words.iter().flat_map(|&word| field(word, b"")).collect()
}

/// A file of `length` bytes: names, one of them with the payload that makes up the length, and EOF.
fn filled(length: usize) -> Vec<u8> {
    let around = plain(&[IDENTIFIER, SEMICOLON, EOF]);
    let text = vec![b'a'; length - around.len()];
    [field(IDENTIFIER, &text), plain(&[SEMICOLON, EOF])].concat()
}

/// The longest texts of sequences of one to four bytes, each whole and with its last byte cut off.
fn long_texts() -> impl Iterator<Item = Vec<u8>> {
    let room = MOST_BYTES - plain(&[STR, EOF]).len();
    let texts = ["a", "\u{7FF}", "\u{FFFD}", "\u{10FFFF}"].map(|one| one.repeat(room / one.len()));
    texts.into_iter().flat_map(|text| {
        let (whole, cut) = (text.as_bytes(), &text.as_bytes()[..text.len() - 1]);
        [whole, cut].map(|bytes| [field(STR, bytes), plain(&[EOF])].concat())
    })
}

/// The limits: lengths, texts, fields and rows, and each short file of a kind; and the worked examples.
fn fixed() -> Vec<Vec<u8>> {
    let mut files: Vec<Vec<u8>> = (0..=12).map(|length| vec![0; length]).collect();
    files.extend((0..=13).map(|class| vec![class, 0, 0]));
    files.extend((0..=10).map(|length| [&[2, 0, length], &vec![7; length as usize][..]].concat()));
    for length in [MOST_BYTES - 1, MOST_BYTES, MOST_BYTES + 1, MOST_BYTES + 4, 65_535, 65_540] {
        files.push(filled(length));
        files.push(vec![0; length]);
    }
    files.extend(long_texts());
    files.extend(examples::all().into_iter().map(|example| example.file));
    for count in [19_998, 19_999, 20_000] {
        files.push(plain(&[vec![EMPTY; count], vec![EOF]].concat()));
    }
    for count in [MOST_ROWS / 3, MOST_ROWS / 2 - 1, MOST_ROWS].into_iter().flat_map(around) {
        files.push(plain(&[vec![IDENTIFIER; count], vec![EOF]].concat()));
        files.push(plain(&[[IDENTIFIER, PLUS].repeat(count), vec![IDENTIFIER, EOF]].concat()));
    }
    // A row for each statement, and one for the script.
    for count in around(MOST_ROWS - 1) {
        files.push(plain(&[[BREAK, SEMICOLON].repeat(count), vec![EOF]].concat()));
    }
    files
}

/// A number, the one before it, and the one behind it.
fn around(number: usize) -> [usize; 3] {
    [number - 1, number, number + 1]
}

struct Maker {
    rng: Rng,
    all: Vec<u16>,
}

impl Maker {
    /// A file: a script's fields, perhaps with some that aren't Unicode, then perhaps damaged or cut.
    fn file(&mut self) -> Vec<u8> {
        let words = self.script();
        let mut fields: Vec<Vec<u8>> =
            words.iter().map(|&word| random_field(&mut self.rng, word)).collect();
        if self.rng.chance(1, 5) {
            spoil(&mut self.rng, &mut fields);
        }
        let mut file = fields.concat();
        match self.rng.below(8) {
            0 => file.truncate(self.rng.below(file.len() + 1)),
            1 => damage_bytes(&mut self.rng, &mut file),
            _ => (),
        }
        file
    }

    /// The words of a file: mostly a good script, EOF behind it.
    fn script(&mut self) -> Vec<u16> {
        let mut words = match self.rng.below(8) {
            0 => damage::noise(&mut self.rng, &self.all),
            1 => nesting::nest(&mut self.rng, true),
            2 => chains::chain(&mut self.rng),
            _ => grammar::text(&mut self.rng, Entry::Script),
        };
        if self.rng.chance(1, 4) {
            damage::damage(&mut self.rng, &mut words, &self.all);
        }
        words.push(EOF);
        if self.rng.chance(1, 16) {
            limits::spoil(&mut self.rng, &mut words);
        }
        words
    }
}

/// A word's field, with a random payload: a text, a character, or any bytes for a number.
pub fn random_field(rng: &mut Rng, word: u16) -> Vec<u8> {
    match word {
        CHAR => tagged(CHARACTER, &u32::from(payloads::character(rng)).to_be_bytes()),
        INTEGER | FLOAT => {
            let bytes: Vec<u8> = (0..8).map(|_| rng.below(256) as u8).collect();
            tagged(class(word), &bytes)
        }
        _ => {
            let most = if rng.chance(1, 50) { 300 } else { 6 };
            field(word, &payloads::text(rng, most))
        }
    }
}

/// A field whose payload isn't Unicode.
fn no_unicode(rng: &mut Rng) -> Vec<u8> {
    if rng.chance(1, 4) {
        tagged(CHARACTER, &payloads::no_character(rng).to_be_bytes())
    } else {
        tagged(rng.pick(&TEXTS), &payloads::no_text(rng))
    }
}

/// Puts payloads that aren't Unicode into a file: behind its end, in a field that is cut short or
/// has a wrong length, a character over two fields, or in one to three whole fields.
pub fn spoil(rng: &mut Rng, fields: &mut Vec<Vec<u8>>) {
    let at = rng.below(fields.len() + 1);
    let mut bad = no_unicode(rng);
    match rng.below(8) {
        0 => fields.push(bad),
        1 => {
            bad.truncate(bad.len() - 1 - rng.below(bad.len() - HEAD));
            fields.truncate(at);
            fields.push(bad);
        }
        2 => fields.insert(at, tagged(CHARACTER, &[0xD8, 0])),
        3 => {
            let halves = payloads::halves(rng);
            fields.splice(at..at, halves.map(|half| tagged(rng.pick(&TEXTS), &half)));
        }
        _ => {
            fields.insert(at, bad);
            for _ in 0..rng.below(3) {
                let other = rng.below(fields.len() + 1);
                fields.insert(other, no_unicode(rng));
            }
        }
    }
}

/// Changes, inserts or deletes one to three bytes.
pub fn damage_bytes(rng: &mut Rng, file: &mut Vec<u8>) {
    for _ in 0..1 + rng.below(3) {
        let limit = if rng.chance(1, 2) { 12 } else { 256 };
        let byte = rng.below(limit) as u8;
        let at = rng.below(file.len() + 1);
        match rng.below(4) {
            0 => file.insert(at, byte),
            1 if at < file.len() => drop(file.remove(at)),
            _ if at < file.len() => file[at] = byte,
            _ => file.push(byte),
        }
    }
}

#[cfg(test)]
mod tests {
    use super::*;
    use crate::files::outline;
    use std::collections::{BTreeMap, BTreeSet};

    #[test]
    fn files_of_each_outcome() {
        let mut counts: BTreeMap<String, usize> = BTreeMap::new();
        for file in files(1).take(3000) {
            let text = outline(&file);
            let key = text.split(' ').take(if text.starts_with("ok") { 1 } else { 2 });
            *counts.entry(key.collect::<Vec<_>>().join(" ")).or_default() += 1;
        }
        for outcome in ["ok", "no 1", "no 2", "no 3", "no 5", "no 6", "no 10", "no 12", "no 33"] {
            assert!(counts.get(outcome).is_some(), "{} in {:?}", outcome, counts);
        }
        assert!(counts["ok"] > 800, "{:?}", counts);
    }

    #[test]
    fn spoilt_files_compete() {
        let mut rng = Rng::new(2);
        let mut answer = || {
            let mut fields = [IDENTIFIER, CHAR].map(|word| random_field(&mut rng, word)).to_vec();
            fields.push(plain(&[EOF]));
            spoil(&mut rng, &mut fields);
            outline(&fields.concat())
        };
        let answers: BTreeSet<String> = (0..300).map(|_| answer()).collect();
        for number in [5, 33] {
            let expected = (0..4).map(|place| format!("no {} {}\n", number, place));
            expected.for_each(|one| assert!(answers.contains(&one), "{} in {:?}", one, answers));
        }
    }

    #[test]
    fn the_filled_file_is_as_long_as_asked() {
        assert_eq!(filled(60_000).len(), 60_000);
    }
}
