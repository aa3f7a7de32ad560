//! The answer to a case, its refusals in their order: the file's, then 38, 34 and 32.
use super::case::Case;
use super::check::{first_bad, first_deep, Bad};
use super::told::Told;
use super::write::text;
use super::TOO_DEEP;
use crate::files;
use crate::trees::held;
use crate::trees::pool::Pool;
use crate::trees::{NO_ROOM, NO_TREE};

#[derive(Debug, PartialEq)]
pub struct Refused {
    pub number: u32,
    pub place: usize,
    /// What is wrong with the row of a refusal with 38.
    pub bad: Option<Bad>,
}

fn refused<T>(number: u32, place: usize) -> Result<T, Refused> {
    Err(Refused { number, place, bad: None })
}

/// What the text of a case is to tell, whether there is room for it or not.
pub fn told(case: &Case) -> Result<Told, Refused> {
    let fields = match files::fields(&case.file) {
        Ok(fields) => fields,
        Err((number, place)) => return refused(number, place as usize),
    };
    let pool = Pool(&case.pool);
    if let Some(bad) = first_bad(pool, case.root, &fields) {
        return Err(Refused { number: NO_TREE, place: bad.row, bad: Some(bad) });
    }
    if let Some(deep) = first_deep(pool, case.root) {
        return refused(TOO_DEEP, deep);
    }
    let tree = held::tree(pool, case.root).expect("rows that aren't bad are a tree");
    Ok(Told::of(&tree, &fields).expect("its payloads are there"))
}

/// The text of a tree, if there is room for it.
pub fn answer(tree: &Told, room: usize) -> Result<String, Refused> {
    let text = text(tree);
    if text.len() > room {
        return refused(NO_ROOM, 0);
    }
    Ok(text)
}
