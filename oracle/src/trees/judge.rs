//! One case by the model: its answer, after all that can be said of it in a second way has been
//! held to it, the round trip by the reader's model and by the original included.
use super::backward;
use super::case::Case;
use super::check::{self, Fault};
use super::held::{self, Tree};
use super::pool::Pool;
use super::write::{self, Written};
use super::{NO_ROOM, NO_TREE};
use crate::batch::{self, Answer};
use crate::gen;
use crate::judge::difference;
use crate::model::{Entry, Mode, MOST_OPEN};
use crate::original;
use crate::words::LONGEST;

/// What comes of a case.
#[derive(Debug)]
pub struct Judged {
    /// The writer's answer: 0 and how many tokens there are, or a refusal with its place.
    pub number: u32,
    pub place: usize,
    /// What is wrong with the row of a refusal with 38.
    pub faults: Vec<Fault>,
    /// What is written, and what comes of reading it; None if the rows are no tree.
    pub form: Option<Form>,
}

/// A written form, and its answer where it is read, which is the same in both modes.
#[derive(Debug)]
pub struct Form {
    pub written: Written,
    pub root_kind: u32,
    pub entry: Entry,
    pub back: [u32; 4],
}

/// The model's answer; or in what two ways of finding it differ.
pub fn judge(case: &Case) -> Result<Judged, String> {
    let pool = Pool(&case.pool);
    let bad = check::first_bad(pool, case.root);
    let place = bad.as_ref().map(|(row, _)| *row);
    if pool.rows() <= backward::SMALL && backward::refused(pool, case.root) != place {
        return Err(format!(
            "backward the check refuses {:?}, not {:?}",
            backward::refused(pool, case.root),
            place
        ));
    }
    let tree = held::tree(pool, case.root);
    if tree.is_some() == bad.is_some() {
        return Err(format!(
            "the check refuses {:?}, but a tree is held: {}",
            place,
            tree.is_some()
        ));
    }
    let refused = |number, place, faults| Judged { number, place, faults, form: None };
    match (bad, tree) {
        (Some((place, faults)), _) => Ok(refused(NO_TREE, place, faults)),
        (None, tree) => {
            let tree = tree.expect("one of the two is there");
            let form = form(&tree)?;
            let count = form.written.words.len();
            let room = case.words.min(case.places) >= count;
            let (number, place) = if room { (0, count) } else { (NO_ROOM, 0) };
            Ok(Judged { number, place, faults: vec![], form: Some(form) })
        }
    }
}

/// What is written of a tree and comes of reading it in both modes; or what is wrong with that.
fn form(tree: &Tree) -> Result<Form, String> {
    let written = write::written(tree);
    let tokens = written.words.clone();
    let read = batch::Case::old(tree.entry(), 0, gen::enough(&tokens), tokens);
    let answer = read.answer();
    if read.clone().by(Mode::Strict).answer() != answer {
        return Err("strict mode reads something else".into());
    }
    expected(tree, &written, &answer)?;
    ask_original(tree, &read, &answer)?;
    Ok(Form { written, root_kind: tree.kind, entry: tree.entry(), back: answer.words })
}

/// The answer must be the same tree, up to the last token; or a refusal of an array that is too
/// long, or of a nest that is too deep.
fn expected(tree: &Tree, written: &Written, answer: &Answer) -> Result<(), String> {
    let (length, size) = (written.words.len(), tree.size() as u32);
    let last = length - if tree.entry() == Entry::Script { 1 } else { 2 };
    let wanted = if length > LONGEST {
        [1, 0, 0, 0]
    } else if tree.open() > MOST_OPEN as usize {
        [2, answer.words[1], 0, 0]
    } else {
        [0, size, size, last as u32]
    };
    if answer.words != wanted {
        return Err(format!("read back as {:?}, not {:?}", answer.words, wanted));
    }
    let is_same = |root: u32| is_same(tree, &answer.rows, root);
    if answer.words[0] == 0 && !is_same(answer.root()) {
        return Err("read back as another tree".into());
    }
    Ok(())
}

/// Whether rows hold the same tree.
fn is_same(tree: &Tree, rows: &[u32], root: u32) -> bool {
    held::tree(Pool(rows), root as usize).is_some_and(|back| back.is_same(tree))
}

/// The original must read what the model does, and in a nest that is too deep for the model the
/// same tree.
fn ask_original(tree: &Tree, read: &batch::Case, answer: &Answer) -> Result<(), String> {
    match answer.words[0] {
        0 => {
            let strict = read.clone().by(Mode::Strict);
            for case in [read, &strict] {
                difference(case, answer)
                    .unwrap_or(Ok(()))
                    .map_err(|what| format!("read back: {}", what))?;
            }
            Ok(())
        }
        2 => {
            let outcome = original::run(read);
            let rows = outcome.rows().concat();
            let same = is_same(tree, &rows, outcome.root());
            same.then_some(()).ok_or_else(|| "the original reads another tree".into())
        }
        _ => Ok(()),
    }
}

#[cfg(test)]
mod tests {
    use super::*;
    use crate::model::{END, ROW};
    use crate::trees::examples::pool_of;
    use crate::trees::gen::{cases, KINDS};

    const SUM: &str = "2 0 0/2 0 2/2 0 4/12 2 3 2 3/12 0 1 1 4/38 0 0 5/46 0 0 6";

    #[test]
    fn a_form_is_read_back() {
        let pool = pool_of(SUM);
        let judged = judge(&Case::roomy(pool.clone(), 7)).unwrap();
        let form = judged.form.unwrap();
        assert_eq!((judged.number, judged.place), (0, 11));
        assert_eq!(form.back, [0, 7, 7, 10]);
    }

    #[test]
    fn a_row_that_differs_is_noticed() {
        let pool = pool_of(SUM);
        let tree = held::tree(Pool(&pool), 7).unwrap();
        assert!(is_same(&tree, &pool, 7));
        for index in 0..pool.len() {
            let mut other = pool.clone();
            other[index] ^= 1;
            let says_nothing = [2, END].contains(&(index % ROW));
            assert_eq!(is_same(&tree, &other, 7), says_nothing, "word {}", index);
        }
    }

    /// All that comes of a case.
    fn outcome(case: &Case) -> (u32, usize, Vec<Fault>, Option<(Written, [u32; 4])>) {
        let Judged { number, place, faults, form } = judge(case).unwrap();
        (number, place, faults, form.map(|form| (form.written, form.back)))
    }

    #[test]
    fn another_end_changes_no_answer() {
        for (_, kind) in KINDS.into_iter().filter(|(name, _)| *name != "large") {
            for case in cases(kind, 5, Some(300)).filter(|case| case.pool.len() < 300 * ROW) {
                let mut other = case.clone();
                other.pool.chunks_exact_mut(ROW).for_each(|row| row[END] = !row[END]);
                assert_eq!(outcome(&case), outcome(&other), "{}", case);
            }
        }
    }

    #[test]
    fn another_written_form_is_noticed() {
        let pool = pool_of(SUM);
        let tree = held::tree(Pool(&pool), 7).unwrap();
        let right = write::written(&tree);
        let read = |words: Vec<u16>| {
            batch::Case::old(tree.entry(), 0, gen::enough(&words), words).answer()
        };
        assert_eq!(expected(&tree, &right, &read(right.words.clone())), Ok(()));
        for index in 0..right.words.len() - 1 {
            let mut words = right.words.clone();
            words.remove(index);
            assert!(expected(&tree, &right, &read(words)).is_err(), "without token {}", index);
        }
    }
}
