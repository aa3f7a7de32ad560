//! One case by the model: its answer, after all that can be said of it in a second way has been held
//! to it. A text must be read back as the same tree.
use super::back;
use super::case::Case;
use super::check::{first_deep_backward, Bad};
use super::model::{self, Refused};
use super::told::Told;
use super::{MOST_DEEP, TOO_DEEP};
use crate::files;
use crate::trees::held::{self, Tree};
use crate::trees::pool::Pool;
use crate::trees::NO_TREE;

/// What comes of a case.
#[derive(Debug)]
pub struct Judged {
    /// The answer: 0 and the length of the text, or a refusal with its place.
    pub number: u32,
    pub value: usize,
    /// What is wrong with the row of a refusal with 38.
    pub bad: Option<Bad>,
    /// The text, if there is room for it, and how many payloads it has.
    pub text: Option<String>,
    pub payloads: usize,
}

/// The model's answer; or in what two ways of finding it differ.
pub fn judge(case: &Case) -> Result<Judged, String> {
    let told = model::told(case);
    look_again(case, &told)?;
    let payloads = told.as_ref().map_or(0, Told::payloads);
    match told.and_then(|tree| model::answer(&tree, case.room).map(|text| (tree, text))) {
        Err(Refused { number, place, bad }) => {
            Ok(Judged { number, value: place, bad, text: None, payloads })
        }
        Ok((tree, text)) => {
            read_back(&tree, &text)?;
            Ok(Judged { number: 0, value: text.len(), bad: None, text: Some(text), payloads })
        }
    }
}

/// Whether the text tells the tree.
fn read_back(tree: &Told, text: &str) -> Result<(), String> {
    let back = back::told(text).map_err(|what| format!("not read back: {}\n  {}", what, text))?;
    (back == *tree).then_some(()).ok_or_else(|| format!("read back as another tree\n  {}", text))
}

/// The most rows of a pool in which paths are gone backward too.
const SMALL: usize = 1000;

/// Finds by the tree that the pool holds whether it is refused with 38 or 34. Of a file that is refused
/// there is nothing more to say.
fn look_again(case: &Case, told: &Result<Told, Refused>) -> Result<(), String> {
    let Ok(fields) = files::fields(&case.file) else {
        return Ok(());
    };
    let pool = Pool(&case.pool);
    let number = told.as_ref().err().map_or(0, |refused| refused.number);
    let tree = held::tree(pool, case.root).filter(|tree| Told::of(tree, &fields).is_some());
    let again = match &tree {
        None => NO_TREE,
        Some(tree) if tree.height() > MOST_DEEP => TOO_DEEP,
        Some(_) => 0,
    };
    if again != number {
        return Err(format!("{} is given, by the tree it is {}", number, again));
    }
    match (told, tree) {
        (Err(refused), Some(tree)) => end_of_path(pool, case.root, refused.place, &tree),
        _ => Ok(()),
    }
}

/// The row of a refusal with 34 has no children, and is found again backward in a small pool.
fn end_of_path(pool: Pool, root: usize, row: usize, tree: &Tree) -> Result<(), String> {
    if pool.children(row) != [0; 4] {
        return Err(format!("34 is at {}, which has children", row));
    }
    if tree.size() <= SMALL && first_deep_backward(pool, root) != Some(row) {
        return Err(format!("34 is at {}, and not so backward", row));
    }
    Ok(())
}

#[cfg(test)]
mod tests {
    use super::*;
    use crate::files::tagged;
    use crate::trees::examples::pool_of;

    const SUM: &str = "2 0 0/2 0 2/2 0 4/12 2 3 2 3/12 0 1 1 4/38 0 0 5/46 0 0 6";

    /// The file of `a + b * c`.
    fn file() -> Vec<u8> {
        let fields: [(u16, &[u8]); 6] =
            [(7, b"a"), (8, &[1]), (7, b"b"), (8, &[3]), (7, b"c"), (2, b"")];
        fields.map(|(class, payload)| tagged(class, payload)).concat()
    }

    #[test]
    fn a_text_is_read_back() {
        let judged = judge(&Case::roomy(pool_of(SUM), 7, file())).unwrap();
        assert_eq!((judged.number, judged.value, judged.payloads), (0, 345, 3));
    }

    #[test]
    fn a_byte_that_differs_is_noticed() {
        let case = Case::roomy(pool_of(SUM), 7, file());
        let tree = model::told(&case).unwrap();
        let text = model::answer(&tree, case.room).unwrap();
        assert_eq!(read_back(&tree, &text), Ok(()));
        for at in 0..text.len() {
            let mut other = text.clone().into_bytes();
            other[at] ^= 1;
            let other = String::from_utf8(other).unwrap();
            assert!(read_back(&tree, &other).is_err(), "byte {} of {}", at, other);
            assert!(read_back(&tree, &(text[..at].to_string() + &text[at + 1..])).is_err());
            assert!(read_back(&tree, &(text[..at].to_string() + " " + &text[at..])).is_err());
        }
    }

    #[test]
    fn another_answer_is_noticed() {
        let good = Case::roomy(pool_of(SUM), 7, file());
        let told = model::told(&good);
        assert_eq!(look_again(&good, &told), Ok(()));
        let bad = Case { root: 8, ..good.clone() };
        assert!(look_again(&bad, &told).is_err());
        assert!(look_again(&good, &model::told(&bad)).is_err());
    }
}
