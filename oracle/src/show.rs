//! Shows one case for people: the answer and tree of the model, and those of the original.
use crate::batch::Case;
use crate::compare::{describe, summary};
use crate::judge::difference;
use crate::original;
use crate::tree;

/// Prints both sides; true if they agree.
pub fn show(case: &Case) -> bool {
    println!("{}", describe(case));
    let answer = case.answer();
    println!("model: {}", summary(&answer));
    print!("{}", tree::lines(&answer.row_arrays(), answer.root(), 1, ""));
    let verdict = difference(case, &answer);
    match verdict {
        None => println!("original: not asked, as it has no such refusal"),
        Some(_) => show_original(case),
    }
    match verdict {
        Some(Err(what)) => {
            println!("they differ: {}", what);
            false
        }
        _ => true,
    }
}

fn show_original(case: &Case) {
    let outcome = original::run(case);
    println!("original: {}", outcome);
    print!("{}", tree::lines(outcome.rows(), outcome.root(), 1, ""));
}
