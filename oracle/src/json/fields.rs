//! Token files for pools: fields with payloads of every form and rows that name them, and damage to
//! both.
use super::payload::{class_of, classes};
use crate::files::{tagged, MOST_BYTES};
use crate::gen::payloads::character;
use crate::gen::rng::Rng;
use crate::gen::token_files::{damage_bytes, random_field, spoil};
use crate::model::ROW;
use crate::words::{self, class, CHAR, EOF, FLOAT, INTEGER, STR};

/// Where a row's place stands.
const PLACE: usize = 2;

/// Characters that are written in a way of their own, or only seem to be.
const SPECIAL: [char; 16] = [
    '"',
    '"',
    '\\',
    '\\',
    '\\',
    '/',
    '\u{8}',
    '\t',
    '\n',
    '\u{C}',
    '\r',
    '\u{7F}',
    '\u{2028}',
    '\u{2029}',
    '\u{FEFF}',
    '\u{1F600}',
];

/// Whole numbers around which digits or signs change.
const EDGES: [i64; 8] =
    [0, 9, 255, 1 << 31, 1 << 53, 999_999_999_999_999_999, i64::MAX - 2, i64::MIN + 2];

/// Makes token files for pools.
pub struct Fields {
    all: Vec<u16>,
}

impl Fields {
    pub fn new() -> Fields {
        let mut all = words::all_but_eof();
        all.push(EOF);
        Fields { all }
    }

    /// Fields for about so many rows, with one at least of each class that a payload needs; seldom a
    /// text among them is long.
    pub fn some(&self, rng: &mut Rng, rows: usize) -> Vec<Vec<u8>> {
        let count = rng.below(rows.min(1000) + 8);
        let mut fields: Vec<Vec<u8>> = (0..count).map(|_| self.any(rng)).collect();
        for class in classes() {
            let at = rng.below(fields.len() + 1);
            fields.insert(at, of_class(rng, class));
        }
        if rows < 30 && rng.chance(1, 1000) {
            fields.push(tagged(class(STR), &text(rng, 10_000)));
        }
        fields
    }

    /// A field of any class, mostly of one that a payload needs.
    fn any(&self, rng: &mut Rng) -> Vec<u8> {
        if rng.chance(3, 4) {
            let class = rng.pick(&classes());
            return of_class(rng, class);
        }
        let word = rng.pick(&self.all);
        random_field(rng, word)
    }

    /// Damages fields or what names them: the file.
    pub fn spoilt(&self, rng: &mut Rng, pool: &mut [u32], mut fields: Vec<Vec<u8>>) -> Vec<u8> {
        let at = rng.below(fields.len());
        match rng.below(16) {
            0..=5 => misplace(rng, pool, fields.len()),
            6 => drop(fields.remove(at)),
            7 => fields.insert(at, self.any(rng)),
            8 => fields.truncate(at),
            9..=11 => spoil(rng, &mut fields),
            _ => {
                let mut file = fields.concat();
                damage_bytes(rng, &mut file);
                return file;
            }
        }
        fields.concat()
    }
}

/// A field of a class that a payload needs.
fn of_class(rng: &mut Rng, wanted: u16) -> Vec<u8> {
    if wanted == class(INTEGER) {
        tagged(wanted, &whole(rng).to_be_bytes())
    } else if wanted == class(FLOAT) {
        tagged(wanted, &bits(rng).to_be_bytes())
    } else if wanted == class(CHAR) {
        tagged(wanted, &u32::from(special(rng)).to_be_bytes())
    } else {
        let most = if rng.chance(1, 50) { 100 } else { 8 };
        tagged(wanted, &text(rng, most))
    }
}

/// A whole number of any length, or near one where the digits change.
fn whole(rng: &mut Rng) -> i64 {
    let near = rng.pick(&EDGES) + (rng.below(5) as i64 - 2);
    let any = bits(rng) >> rng.below(64);
    let sign = rng.pick(&[1, -1]);
    if rng.chance(1, 3) {
        near.wrapping_mul(sign)
    } else {
        (any as i64).wrapping_mul(sign)
    }
}

/// Any 64 bits, a third of the time with few that are set.
fn bits(rng: &mut Rng) -> u64 {
    let half = |rng: &mut Rng| rng.below(1 << 32) as u64;
    let any = half(rng) << 32 | half(rng);
    if rng.chance(1, 3) {
        any & 1 << rng.below(64)
    } else {
        any
    }
}

/// A character, often one with an escape.
fn special(rng: &mut Rng) -> char {
    match rng.below(4) {
        0 => rng.pick(&SPECIAL),
        1 => char::from(rng.below(0x20) as u8),
        _ => character(rng),
    }
}

/// A text of fewer than so many characters, now and then all of them backslashes.
fn text(rng: &mut Rng, most: usize) -> Vec<u8> {
    let count = rng.below(most);
    if rng.chance(1, 12) {
        return vec![b'\\'; count];
    }
    (0..count).map(|_| special(rng)).collect::<String>().into_bytes()
}

/// Has each row that needs a field name one of the right class.
pub fn place(rng: &mut Rng, pool: &mut [u32], fields: &[Vec<u8>]) {
    let mut by_class = vec![vec![]; usize::from(words::CLASSES)];
    for (number, field) in fields.iter().enumerate() {
        by_class[usize::from(field[0])].push(number as u32);
    }
    for row in pool.chunks_exact_mut(ROW) {
        if let Some(class) = class_of(row[0]) {
            row[PLACE] = rng.pick(&by_class[usize::from(class)]);
        }
    }
}

/// Has one to three rows that need a field name another one of so many, or none.
fn misplace(rng: &mut Rng, pool: &mut [u32], count: usize) {
    let rows = pool.chunks_exact_mut(ROW).filter(|row| class_of(row[0]).is_some());
    let mut rows: Vec<&mut [u32]> = rows.collect();
    if rows.is_empty() {
        return;
    }
    for _ in 0..1 + rng.below(3) {
        let row = rng.below(rows.len());
        let other = rng.below(count);
        let far = [count, count + 1, other + (1 << 16), u32::MAX as usize];
        let place = if rng.chance(1, 2) { other } else { rng.pick(&far) };
        rows[row][PLACE] = place as u32;
    }
}

/// The file of some fields and a last one that makes it so long.
pub fn filled(fields: &[Vec<u8>], length: usize) -> Vec<u8> {
    let file = fields.concat();
    let head = tagged(class(STR), b"").len();
    let rest = vec![b'a'; length.saturating_sub(file.len() + head)];
    [file, tagged(class(STR), &rest)].concat()
}

/// A length around the longest file.
pub fn long(rng: &mut Rng) -> usize {
    MOST_BYTES - 2 + rng.below(6)
}

#[cfg(test)]
mod tests {
    use super::*;
    use crate::files::fields;
    use crate::trees::examples::pool_of;

    #[test]
    fn every_row_names_its_field() {
        let (maker, mut rng) = (Fields::new(), Rng::new(3));
        for _ in 0..200 {
            let mut pool = pool_of("2/3/4/5/6/7/18/34/35/40");
            let made = maker.some(&mut rng, 10);
            place(&mut rng, &mut pool, &made);
            let file = made.concat();
            let read = fields(&file).expect("a good file");
            for row in pool.chunks(ROW) {
                let given = read.get(row[PLACE] as usize).map(|field| field.class);
                assert!(class_of(row[0]).is_none() || class_of(row[0]) == given, "{:?}", row);
            }
        }
    }

    #[test]
    fn numbers_have_every_length() {
        let mut rng = Rng::new(4);
        let numbers: Vec<i64> = (0..5000).map(|_| whole(&mut rng)).collect();
        for length in 1..=19 {
            let has = |sign: i64| {
                let is = |&&one: &&i64| {
                    one.signum() == sign && one.unsigned_abs().to_string().len() == length
                };
                numbers.iter().any(|one| is(&one))
            };
            assert!(has(1) && has(-1), "{} digits", length);
        }
        let ends = [0, i64::MIN, i64::MAX];
        assert!(ends.iter().all(|end| numbers.contains(end)));
    }

    #[test]
    fn a_file_is_as_long_as_asked() {
        assert_eq!(filled(&[tagged(7, b"a")], 60_000).len(), 60_000);
    }
}
