//! The oracle's commands.
mod batch;
mod compare;
mod ends;
mod examples;
mod files;
mod gen;
mod groups;
mod json;
mod judge;
mod kinds;
mod lexer;
mod model;
mod original;
mod places;
mod questions;
mod record;
mod selfcheck;
mod show;
mod signs;
mod text;
mod tree;
mod trees;
mod words;

// The original parser's text, copied at build time.
include!(concat!(env!("OUT_DIR"), "/original.rs"));

use std::fs::File;
use std::io::{self, BufReader, BufWriter, Read, Write};
use std::path::Path;
use std::process::ExitCode;

const USAGE: &str = "commands:
  gen KIND [--seed N] [--count N] [--rows plenty|scarce|edge] [--mode old|strict]
                             a batch of cases on standard output
      (kinds: short valid damaged loose noise chains nesting limits mixed)
  gen examples|ends [--mode old|strict]   a batch of the worked examples, or of those of rows' ends
  gen modes --mode old|strict        a batch of those that are there with both modes' answers
  record [--every N] [--most BYTES]   the cases of the batch on standard input, each with its answer
      (one of every N cases; no records of more than so many bytes; stops where model and original
      differ, and prints on standard error how many answers both give)
  outline                    what the printing program writes to the token file on standard input
  files FOLDER [--seed N] [--count N]   random token files NAME.tok, and what it writes to each: NAME.out
  files FOLDER --examples    the worked examples of token files, in the same way
  answer                     the model's answers to the batch on standard input
  compare ANSWERS            compares a file of answers with the model's, batch on standard input
  selfcheck [--seed N]       compares model and original on every kind of case
  show X|S|W [--mode old|strict] [--start N] [--rows N] TEXT   one case by model and original, for people
      (X one expression, S one statement, W the whole script; TEXT as tools/tokens has it)";

fn main() -> ExitCode {
    let arguments: Vec<String> = std::env::args().skip(1).collect();
    match on_large_stack(move || run(&arguments)) {
        Ok(true) => ExitCode::SUCCESS,
        Ok(false) => ExitCode::FAILURE,
        Err(error) => {
            eprintln!("oracle: {}", error);
            ExitCode::from(2)
        }
    }
}

fn wrong(what: String) -> io::Error {
    io::Error::new(io::ErrorKind::InvalidInput, what)
}

/// The original and its trees recurse as deep as they are long.
const STACK: usize = 1 << 29;

/// Runs `work` on a thread of its own.
fn on_large_stack<T: Send + 'static>(work: impl FnOnce() -> T + Send + 'static) -> T {
    let thread = std::thread::Builder::new().stack_size(STACK).spawn(work);
    thread.expect("a thread can be started").join().expect("its work doesn't panic")
}

/// Runs a command; false if it found a difference.
fn run(arguments: &[String]) -> io::Result<bool> {
    let command = arguments.first().map_or("", String::as_str);
    let rest = arguments.get(1..).unwrap_or(&[]);
    match (command, rest) {
        ("gen", [kind, rest @ ..]) if kind == "examples" => generate_by(examples::all()?, rest),
        ("gen", [kind, rest @ ..]) if kind == "ends" => generate_by(examples::ends()?, rest),
        ("gen", [kind, option, name]) if kind == "modes" && option == "--mode" => {
            let by = mode(name)?;
            generate(cases_of(examples::modes()?).filter(|case| case.mode == by))
        }
        ("gen", rest) if !rest.is_empty() => generate(gen::cases(&wish(rest)?)),
        ("record", rest) => {
            let (mut cases, mut out) = (io::stdin().lock(), BufWriter::new(io::stdout().lock()));
            let done = record::record(&mut cases, &mut out, &choice(rest)?, batch::Case::answer)?;
            Ok(told(done))
        }
        ("outline", []) => {
            let mut file = vec![];
            io::stdin().lock().read_to_end(&mut file)?;
            print!("{}", files::outline(&file));
            Ok(true)
        }
        ("files", [folder, option]) if option == "--examples" => write_examples(Path::new(folder)),
        ("files", [folder, rest @ ..]) => write_files(Path::new(folder), rest),
        ("answer", []) => answer(),
        ("selfcheck", []) => selfcheck::run(1),
        ("selfcheck", [option, seed]) if option == "--seed" => {
            selfcheck::run(number(option, seed)?)
        }
        ("show", rest) if !rest.is_empty() => Ok(show::show(&shown(rest)?)),
        ("compare", [answers]) => {
            let mut answers = BufReader::new(File::open(answers)?);
            Ok(compare::compare(&mut io::stdin().lock(), &mut answers)? == 0)
        }
        _ => trees::run(command, rest)
            .or_else(|| json::run(command, rest))
            .unwrap_or_else(|| Err(wrong(format!("{}{}{}", USAGE, trees::USAGE, json::USAGE)))),
    }
}

/// Prints what came of a recording; false if it was stopped.
fn told(done: Result<impl std::fmt::Display, String>) -> bool {
    match &done {
        Ok(tally) => eprintln!("{}", tally),
        Err(what) => eprintln!("oracle: {}", what),
    }
    done.is_ok()
}

/// The number behind an option.
fn number<T: std::str::FromStr>(option: &str, value: &str) -> io::Result<T> {
    value.parse().map_err(|_| wrong(format!("{} wants a number, not {}", option, value)))
}

/// The kind of a name.
fn kind<K: Copy>(kinds: &[(&str, K)], name: &str) -> io::Result<K> {
    let found = kinds.iter().find(|(known, _)| *known == name);
    found.map(|(_, kind)| *kind).ok_or_else(|| wrong(format!("no kind {}", name)))
}

/// The mode of a name.
fn mode(name: &str) -> io::Result<model::Mode> {
    match name {
        "old" => Ok(model::Mode::Old),
        "strict" => Ok(model::Mode::Strict),
        _ => Err(wrong(format!("no mode {}", name))),
    }
}

/// How many rows, by name.
fn rows(name: &str) -> io::Result<gen::Rows> {
    match name {
        "plenty" => Ok(gen::Rows::Plenty),
        "scarce" => Ok(gen::Rows::Scarce),
        "edge" => Ok(gen::Rows::Edge),
        _ => Err(wrong(format!("no rows {}", name))),
    }
}

/// Reads the kind and the options of `gen`.
fn wish(arguments: &[String]) -> io::Result<gen::Wish> {
    let mut wish = gen::Wish::of(kind(&gen::KINDS, &arguments[0])?, 1);
    for pair in arguments[1..].chunks(2) {
        match pair {
            [option, value] if option == "--seed" => wish.seed = number(option, value)?,
            [option, value] if option == "--count" => wish.count = Some(number(option, value)?),
            [option, value] if option == "--rows" => wish.rows = rows(value)?,
            [option, value] if option == "--mode" => wish.mode = mode(value)?,
            _ => return Err(wrong(format!("unknown option {}\n{}", pair.join(" "), USAGE))),
        }
    }
    Ok(wish)
}

/// Reads the options of `record`.
fn choice(arguments: &[String]) -> io::Result<record::Choice> {
    let mut choice = record::Choice::default();
    for pair in arguments.chunks(2) {
        if !choice.take(pair)? {
            return Err(wrong(format!("unknown option {}\n{}", pair.join(" "), USAGE)));
        }
    }
    Ok(choice)
}

/// The case that the arguments of `show` describe.
fn shown(arguments: &[String]) -> io::Result<batch::Case> {
    let entry = examples::entry(&arguments[0]).ok_or_else(|| wrong(USAGE.into()))?;
    let mut rest = &arguments[1..];
    let (mut start, mut rows, mut by) = (0, None, model::Mode::Old);
    while let [option, value, others @ ..] = rest {
        match option.as_str() {
            "--start" => start = number(option, value)?,
            "--rows" => rows = Some(number(option, value)?),
            "--mode" => by = mode(value)?,
            _ => break,
        }
        rest = others;
    }
    let tokens = text::to_words(&rest.join(" "))?.concat();
    let pool = rows.map_or(gen::enough(&tokens), |rows: usize| rows * model::ROW);
    Ok(batch::Case { entry, mode: by, start, pool, tokens })
}

/// The cases of some examples.
fn cases_of(examples: Vec<examples::Example>) -> impl Iterator<Item = batch::Case> {
    examples.into_iter().map(|example| example.case)
}

/// Writes a batch of examples, in the old mode unless another is named.
fn generate_by(examples: Vec<examples::Example>, options: &[String]) -> io::Result<bool> {
    let by = match options {
        [] => model::Mode::Old,
        [option, name] if option == "--mode" => mode(name)?,
        _ => return Err(wrong(format!("unknown option {}\n{}", options.join(" "), USAGE))),
    };
    generate(cases_of(examples).map(|case| case.by(by)))
}

fn generate(cases: impl Iterator<Item = batch::Case>) -> io::Result<bool> {
    let mut out = BufWriter::new(io::stdout().lock());
    for case in cases {
        batch::write_case(&mut out, &case)?;
    }
    out.flush()?;
    Ok(true)
}

/// Writes random token files and their outlines into a folder.
fn write_files(folder: &Path, options: &[String]) -> io::Result<bool> {
    let (mut seed, mut count) = (1, 1000);
    for pair in options.chunks(2) {
        match pair {
            [option, value] if option == "--seed" => seed = number(option, value)?,
            [option, value] if option == "--count" => count = number(option, value)?,
            _ => return Err(wrong(format!("unknown option {}\n{}", pair.join(" "), USAGE))),
        }
    }
    for (index, file) in gen::token_files::files(seed).take(count).enumerate() {
        write_file(folder, &format!("{:06}", index), &file)?;
    }
    Ok(true)
}

/// Writes the worked examples of token files and their outlines into a folder; false if the table has
/// another answer to one.
fn write_examples(folder: &Path) -> io::Result<bool> {
    let mut all_hold = true;
    for example in files::examples::all() {
        write_file(folder, example.name, &example.file)?;
        if !example.holds() {
            eprintln!("oracle: {}: the table has another answer", example.name);
            all_hold = false;
        }
    }
    Ok(all_hold)
}

/// Writes a token file and its outline into a folder.
fn write_file(folder: &Path, name: &str, file: &[u8]) -> io::Result<()> {
    std::fs::write(folder.join(format!("{}.tok", name)), file)?;
    std::fs::write(folder.join(format!("{}.out", name)), files::outline(file))
}

fn answer() -> io::Result<bool> {
    let mut cases = io::stdin().lock();
    let mut out = BufWriter::new(io::stdout().lock());
    while let Some(case) = batch::read_case(&mut cases)? {
        batch::write_answer(&mut out, &case.answer())?;
    }
    out.flush()?;
    Ok(true)
}
