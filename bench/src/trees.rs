//! Trees in pools, of some shapes and any number of rows, made by chance from fixed seeds.
use crate::chance::Chance;
use crate::readers::{self, CHILD, NEXT, ROW};
use crate::scripts::{self, Kind};

/// The shapes of trees.
#[derive(Clone, Copy, Debug, PartialEq)]
pub enum Shape {
    /// `a = a = a` and so on with any operators: as deep as there are operators.
    Deep,
    /// A script of such statements, each as deep as a tree may be that is written as JSON.
    Nests,
    /// A script of simple statements.
    Wide,
    /// A script of statements of every form, as they are read.
    Mixed,
    /// A script of strings, one to a statement.
    Texts,
}

impl Shape {
    /// Those that are written as scripts.
    pub const SCRIPTS: [Shape; 3] = [Shape::Deep, Shape::Wide, Shape::Mixed];

    /// Those that are written as JSON.
    pub const JSON: [Shape; 4] = [Shape::Nests, Shape::Wide, Shape::Mixed, Shape::Texts];

    /// Its name, which no other of the same list has.
    pub fn name(self) -> &'static str {
        match self {
            Shape::Deep | Shape::Nests => "deep",
            Shape::Wide => "wide",
            Shape::Mixed => "mixed",
            Shape::Texts => "texts",
        }
    }

    pub fn named(name: &str, list: &[Shape]) -> Option<Shape> {
        list.iter().copied().find(|shape| shape.name() == name)
    }
}

/// The kinds of rows that are made here, by the numbers of document 01.
const IDENTIFIER: u32 = 2;
const STRING: u32 = 6;
const INFIX: u32 = 12;
const BREAK: u32 = 32;
const RETURN: u32 = 36;
const EXPRESSION: u32 = 38;
const BLOCK: u32 = 46;
const INFIX_MARKS: usize = 23;

/// The most operators in one another in a tree that is written as JSON: with a value, the statement and the block around
/// them 128 rows are on a path.
const NESTED: usize = 128 - 3;

/// The most tokens of a script that a mixed tree takes its statements from.
const PIECE: usize = 1000;

/// A tree of exactly `rows` rows, its root the last of them. Another number gives another tree.
pub fn tree(shape: Shape, rows: usize, number: u64) -> Vec<u32> {
    let mut maker = Maker { chance: Chance::new(number), words: vec![] };
    match shape {
        Shape::Deep => maker.deep(rows),
        Shape::Nests => maker.script(rows, Maker::nest),
        Shape::Wide => maker.script(rows, Maker::simple),
        Shape::Mixed => maker.mixed(rows, number),
        Shape::Texts => maker.script(rows, Maker::string),
    }
    assert_eq!(maker.words.len(), ROW * rows);
    maker.words
}

/// The rows of a tree under way.
struct Maker {
    chance: Chance,
    words: Vec<u32>,
}

impl Maker {
    /// Adds a row, and gives its reference.
    fn put(&mut self, kind: u32, mark: u32, children: [u32; 2]) -> u32 {
        let mut row = [0; ROW];
        let place = (self.words.len() / ROW) as u32;
        row[..3].copy_from_slice(&[kind, mark, place]);
        row[CHILD..CHILD + 2].copy_from_slice(&children);
        self.words.extend(row);
        self.last()
    }

    /// The last row.
    fn last(&self) -> u32 {
        (self.words.len() / ROW) as u32
    }

    /// Adds a name, a number, a character or a string.
    fn value(&mut self) -> u32 {
        let kind = IDENTIFIER + self.chance.below((STRING - IDENTIFIER) as usize + 1) as u32;
        self.put(kind, 0, [0, 0])
    }

    /// So many operators in one another, to the left.
    fn chain(&mut self, operators: usize) -> u32 {
        let mut left = self.value();
        for _ in 0..operators {
            let right = self.value();
            let mark = self.chance.below(INFIX_MARKS) as u32;
            left = self.put(INFIX, mark, [left, right]);
        }
        left
    }

    /// One chain of operators; an even number of rows has a statement around it.
    fn deep(&mut self, rows: usize) {
        let chain = self.chain((rows - 1) / 2);
        if rows % 2 == 0 {
            self.put(EXPRESSION, 0, [chain, 0]);
        }
    }

    /// Puts the block around a list of statements.
    fn block(&mut self, statements: &[u32]) {
        for pair in statements.windows(2) {
            self.words[ROW * (pair[0] as usize - 1) + NEXT] = pair[1];
        }
        self.put(BLOCK, 0, [statements.first().copied().unwrap_or(0), 0]);
    }

    /// How many of so many rows are left besides the block around all.
    fn left(&self, rows: usize) -> usize {
        rows - 1 - self.words.len() / ROW
    }

    /// Statements of at most so many rows each, as long as there are rows; where one is left, it is a `break`.
    fn script(&mut self, rows: usize, statement: fn(&mut Maker, usize) -> u32) {
        let mut statements = vec![];
        while self.left(rows) > 0 {
            statements.push(match self.left(rows) {
                1 => self.put(BREAK, 0, [0, 0]),
                left => statement(self, left),
            });
        }
        self.block(&statements);
    }

    /// A statement of at most so many rows with operators in one another.
    fn nest(&mut self, most: usize) -> u32 {
        let chain = self.chain(NESTED.min((most - 2) / 2));
        self.put(EXPRESSION, 0, [chain, 0])
    }

    /// A simple statement: of one row, or two.
    fn simple(&mut self, _most: usize) -> u32 {
        let kind = match self.chance.below(4) {
            0 => return self.put(BREAK, 0, [0, 0]),
            1 => RETURN,
            _ => EXPRESSION,
        };
        let value = self.value();
        self.put(kind, 0, [value, 0])
    }

    /// A statement of a string.
    fn string(&mut self, _most: usize) -> u32 {
        let string = self.put(STRING, 0, [0, 0]);
        self.put(EXPRESSION, 0, [string, 0])
    }

    /// Statements of scripts that are read, as long as they fit, and simple ones.
    fn mixed(&mut self, rows: usize, number: u64) {
        let mut statements = vec![];
        for piece in 0.. {
            let seed = 1000 * number + piece;
            let tokens = scripts::script(Kind::Statements, PIECE.min(rows / 2), seed);
            let mut pool = vec![0; 2 * ROW * tokens.len()];
            let answer = readers::plain(&tokens, &mut pool);
            let added = answer[2] as usize - 1;
            if added > self.left(rows) {
                break;
            }
            statements.extend(self.copy(&pool[..ROW * added], pool[ROW * added + CHILD]));
        }
        while self.left(rows) > 0 {
            statements.push(self.put(BREAK, 0, [0, 0]));
        }
        self.block(&statements);
    }

    /// Copies rows behind the others, and gives the references of the list that begins at one of them.
    fn copy(&mut self, rows: &[u32], first: u32) -> Vec<u32> {
        let before = self.last();
        for row in rows.chunks_exact(ROW) {
            let mut row = row.to_vec();
            row[2] += before;
            for word in &mut row[CHILD..=NEXT] {
                *word += if *word == 0 { 0 } else { before };
            }
            self.words.extend(row);
        }
        let behind = |reference: &u32| rows[ROW * (*reference as usize - 1) + NEXT];
        let next = |reference: &u32| Some(behind(reference)).filter(|&next| next != 0);
        let list = std::iter::successors(Some(first), next);
        list.map(|reference| reference + before).collect()
    }
}
