//! The oracle's commands for trees in pools.
use super::case::Case;
use super::examples::{self, read_rows};
use super::gen;
use super::judge::judge;
use super::record::forms;
use super::selfcheck;
use crate::questions::{record, Wanted};
use crate::text;
use crate::{kind, mode, number, told, wrong};
use std::io::{self, BufWriter};

pub const USAGE: &str = "
  trees-record KIND [--seed N] [--count N] [--every N] [--most BYTES]
                             cases of trees in pools, each with the model's answers
      (kinds: examples table grown parsed nests large broken noise limits; counts on standard error)
  trees-forms --mode old|strict   what the records on standard input have written, as a batch
  trees-selfcheck [--seed N] every kind of them in every way that the model has, and the round trip
  trees-show ROOT ROWS       what the check and the writer answer, for people
      (a row's words with blanks between, but for zeros behind the last other one; a stroke between
      rows)";

/// Runs a command; false if it found a difference, None if there is no such command.
pub fn run(command: &str, rest: &[String]) -> Option<io::Result<bool>> {
    Some(match (command, rest) {
        ("trees-record", [kind, rest @ ..]) => record_kind(kind, rest),
        ("trees-forms", [option, name]) if option == "--mode" => forms_by(name),
        ("trees-selfcheck", []) => selfcheck::run(1),
        ("trees-selfcheck", [option, seed]) if option == "--seed" => {
            number(option, seed).and_then(selfcheck::run)
        }
        ("trees-show", [root, rows]) => show(root, rows),
        _ => return None,
    })
}

fn record_kind(name: &str, options: &[String]) -> io::Result<bool> {
    let wanted = Wanted::of(options, USAGE)?;
    let mut out = BufWriter::new(io::stdout().lock());
    if name == "examples" {
        let cases = examples::all()?.into_iter().map(|example| example.case);
        return Ok(told(record(cases, &mut out, &wanted.choice)?));
    }
    let cases = gen::cases(kind(&gen::KINDS, name)?, wanted.seed, wanted.count);
    Ok(told(record(cases, &mut out, &wanted.choice)?))
}

fn forms_by(name: &str) -> io::Result<bool> {
    let (mut records, mut out) = (io::stdin().lock(), BufWriter::new(io::stdout().lock()));
    forms(&mut records, &mut out, mode(name)?)?;
    Ok(true)
}

/// Prints what the model answers to a pool in the text form.
fn show(root: &str, rows: &str) -> io::Result<bool> {
    let pool = read_rows(rows).map_err(|_| wrong(format!("rows are numbers, not {}", rows)))?;
    let case = Case::roomy(pool, number("ROOT", root)?);
    let judged = match judge(&case) {
        Ok(judged) => judged,
        Err(what) => {
            println!("{}", what);
            return Ok(false);
        }
    };
    match judged.form {
        None => println!("no {} {} {:?}", judged.number, judged.place, judged.faults),
        Some(form) => {
            let places = form.written.places.iter().enumerate().filter(|(_, &place)| place != 0);
            let places: Vec<String> =
                places.map(|(token, place)| format!("{}:{}", token, place)).collect();
            println!("ok {} {}", judged.place, text::of_words(&form.written.words));
            println!("places {}", places.join(" "));
            println!("read back by {:?}: {:?}", form.entry, form.back);
        }
    }
    Ok(true)
}
