//! Pools of rows for the tests.
use super::DIRT;
use shigthapul::{Kind, Reason, Refusal, Row, ROW_WORDS};

/// The refusal of a pool that is no tree.
pub fn no_tree(place: usize) -> Refusal {
    Refusal { reason: Reason::NoTree, place }
}

/// The words of some rows, with three words left over.
pub fn pool_of(rows: &[Row]) -> Vec<u32> {
    rows.iter().flat_map(|row| row.words()).chain([DIRT; 3]).collect()
}

/// A row of a kind with children.
pub fn row(kind: Kind, children: [u32; 4]) -> Row {
    Row { children, ..Row::new(kind, 0) }
}

/// The pool of a line of a table.
pub fn rows_of(line: &str) -> Vec<u32> {
    let row = |text: &str| {
        let mut words: Vec<u32> = text.split_whitespace().map(number).collect();
        words.resize(ROW_WORDS, 0);
        words
    };
    line.split('/').flat_map(row).collect()
}

/// The number of a text.
pub fn number(text: &str) -> u32 {
    text.parse().unwrap_or_else(|_| panic!("no number: {}", text))
}

/// A small tree of each kind, its rows before it: the root last.
pub fn trees() -> Vec<Vec<Row>> {
    let name = Row::new(Kind::Identifier, 5);
    let block = Row::new(Kind::Block, 0);
    let part = Row::new(Kind::Name, 6);
    let pair = row(Kind::Pair, [1, 2, 0, 0]);
    Kind::ALL
        .iter()
        .map(|&kind| match kind {
            Kind::Array => vec![name, row(kind, [1, 0, 0, 0])],
            Kind::Hash => vec![name, name, pair, row(kind, [3, 0, 0, 0])],
            Kind::Index | Kind::Call | Kind::Infix | Kind::Lambda | Kind::Pair | Kind::Assert => {
                vec![name, name, row(kind, [1, 2, 0, 0])]
            }
            Kind::Prefix | Kind::Suffix | Kind::Shell | Kind::Const | Kind::Throw => {
                vec![name, row(kind, [1, 0, 0, 0])]
            }
            Kind::Var | Kind::Return | Kind::Expression => vec![name, row(kind, [1, 0, 0, 0])],
            Kind::Attribute => vec![name, part, row(kind, [1, 2, 0, 0])],
            Kind::Try => vec![block, name, block, block, row(kind, [1, 2, 3, 4])],
            Kind::Function | Kind::While => vec![name, block, row(kind, [1, 2, 0, 0])],
            Kind::For => vec![name, name, block, row(kind, [1, 2, 3, 0])],
            Kind::If => vec![name, block, block, row(kind, [1, 2, 3, 0])],
            Kind::ForEach => vec![name, name, name, block, row(kind, [1, 2, 3, 4])],
            Kind::Block => vec![Row::new(Kind::Break, 0), row(kind, [1, 0, 0, 0])],
            _ => vec![Row::new(kind, 7)],
        })
        .collect()
}

/// A pool whose root, the last row, is a block of so many `break ;`.
pub fn breaks(count: usize) -> Vec<u32> {
    let mut rows: Vec<Row> = vec![];
    for next in 2..=count as u32 {
        rows.push(Row { next, ..Row::new(Kind::Break, 0) });
    }
    rows.push(Row::new(Kind::Break, 0));
    rows.push(row(Kind::Block, [1, 0, 0, 0]));
    rows.iter().flat_map(|row| row.words()).collect()
}
