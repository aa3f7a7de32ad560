//! The oracle's commands for trees as JSON texts.
use super::case::Case;
use super::judge::judge;
use super::{examples, gen};
use crate::questions::{record, Wanted};
use crate::trees::examples::read_rows;
use crate::{kind, number, told, wrong};
use std::io::{self, BufWriter, Read};

pub const USAGE: &str = "
  json-record KIND [--seed N] [--count N] [--every N] [--most BYTES]
                             cases of trees as JSON texts, each with the model's answer
      (kinds: examples table grown parsed deep large broken fields noise limits; counts on standard
      error)
  json-show ROOT ROWS [--room BYTES]   the text of a tree with the token file on standard input, or the
      refusal (rows as for trees-show)";

/// Runs a command; false if it found a difference, None if there is no such command.
pub fn run(command: &str, rest: &[String]) -> Option<io::Result<bool>> {
    Some(match (command, rest) {
        ("json-record", [kind, rest @ ..]) => record_kind(kind, rest),
        ("json-show", [root, rows]) => show(root, rows, None),
        ("json-show", [root, rows, option, room]) if option == "--room" => {
            show(root, rows, Some(room))
        }
        _ => return None,
    })
}

fn record_kind(name: &str, options: &[String]) -> io::Result<bool> {
    let wanted = Wanted::of(options, USAGE)?;
    let mut out = BufWriter::new(io::stdout().lock());
    if name == "examples" {
        if let Some(what) = examples::wrong().first() {
            return Err(wrong(format!("the table has another answer: {}", what)));
        }
        let cases = examples::all().into_iter().map(|example| example.case);
        return Ok(told(record(cases, &mut out, &wanted.choice)?));
    }
    let cases = gen::cases(kind(&gen::KINDS, name)?, wanted.seed, wanted.count);
    Ok(told(record(cases, &mut out, &wanted.choice)?))
}

/// Prints what the model answers to a pool in the text form, with the file on standard input.
fn show(root: &str, rows: &str, room: Option<&String>) -> io::Result<bool> {
    let pool = read_rows(rows).map_err(|_| wrong(format!("rows are numbers, not {}", rows)))?;
    let mut file = vec![];
    io::stdin().lock().read_to_end(&mut file)?;
    let mut case = Case::roomy(pool, number("ROOT", root)?, file);
    if let Some(room) = room {
        case.room = number("--room", room)?;
    }
    match judge(&case) {
        Ok(judged) => {
            match judged.text {
                Some(text) => println!("ok {} {}", judged.value, text),
                None => println!("no {} {}", judged.number, judged.value),
            }
            Ok(true)
        }
        Err(what) => {
            println!("{}", what);
            Ok(false)
        }
    }
}
