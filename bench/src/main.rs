//! The bench's commands: tables of times, and one run of a reader or a writer between two marks, for counting instructions.
mod agree;
mod chance;
mod characters;
mod clock;
mod columns;
mod count;
mod file_agree;
mod file_readers;
mod file_tables;
mod files;
mod json_agree;
mod json_tables;
mod json_trees;
mod json_writers;
mod lexer;
mod readers;
mod scripts;
mod tables;
mod texts;
mod timing;
mod trees;
mod writers;
mod written;

// Shared with the oracle.
#[allow(dead_code)]
#[path = "../../oracle/src/words.rs"]
mod words;

// Shared with the bindings.
#[cfg(feature = "ours")]
#[allow(dead_code)]
#[path = "../../bindings/rust/src/raw.rs"]
mod raw;
#[allow(dead_code)]
#[path = "../../bindings/rust/src/sizes.rs"]
mod sizes;

// The original parser's text, copied at build time.
include!(concat!(env!("OUT_DIR"), "/original.rs"));

use file_readers::FileReader;
use files::Content;
use json_writers::JsonWriter;
use readers::Reader;
use scripts::Kind;
use trees::Shape;
use writers::Writer;

const USAGE: &str = "commands:
  times [--samples N]         tables of the readers' times, best of N samples (15 unless given)
  trees [--samples N]         the table of the writers' times
  files [--samples N]         the tables of the times for token files and texts
  json [--samples N]          the table of the times for trees as JSON
  json-texts FOLDER           a JSON text of each shape and size, to files in a folder
  count READER KIND TOKENS    one read between two marks
      (readers: original ours strict plain; kinds: chains calls statements)
  count-tree WRITER SHAPE ROWS   one check or writing of a tree between two marks
      (writers: check plain-check write plain-write; shapes: deep wide mixed)
  count-file READER KIND BYTES   one read of a token file between two marks, of at most so many bytes (60000 or fewer)
      (readers: ours, and plain for the last five kinds; kinds: chain.tok label.tok report.tok thinning.tok
      unclosed.tok chains calls statements ascii two three four mixed)
  count-json WRITER SHAPE ROWS   one writing of a tree as JSON between two marks
      (writers: ours plain; shapes: deep wide mixed texts)";

/// How many samples are taken unless it is said.
const SAMPLES: usize = 15;

/// The original recurses as deep as its statements nest, and its trees are dropped so too.
const STACK: usize = 1 << 28;

fn main() {
    let arguments: Vec<String> = std::env::args().skip(1).collect();
    // Token files and JSON texts need no such stack, and with one thread an emulator is twice as fast.
    let command = arguments.first().map_or("", String::as_str);
    let done = match command {
        "files" | "count-file" | "json" | "json-texts" | "count-json" => run(&arguments),
        _ => in_thread(move || run(&arguments)),
    };
    if !done {
        eprintln!("{}", USAGE);
        std::process::exit(2);
    }
}

/// What some work gives, done on a thread with a large stack.
fn in_thread(work: impl FnOnce() -> bool + Send + 'static) -> bool {
    let thread = std::thread::Builder::new().stack_size(STACK).spawn(work);
    thread.expect("a thread can be started").join().expect("its work doesn't panic")
}

/// Runs a command; false if there is none such.
fn run(arguments: &[String]) -> bool {
    let words: Vec<&str> = arguments.iter().map(String::as_str).collect();
    match words[..] {
        ["json-texts", folder] => {
            json_tables::write_texts(folder);
            true
        }
        [table] => print(table, SAMPLES),
        [table, "--samples", samples] => match samples.parse() {
            Ok(samples) if samples > 0 => print(table, samples),
            _ => false,
        },
        [command, by, kind, size] => match size.parse() {
            Ok(size) => once(command, by, kind, size).is_some(),
            Err(_) => false,
        },
        _ => false,
    }
}

/// Prints tables by their name; false if there are none such.
fn print(table: &str, samples: usize) -> bool {
    match table {
        "times" => tables::print(samples),
        "trees" => written::print(samples),
        "files" => file_tables::print(samples),
        "json" => json_tables::print(samples),
        _ => return false,
    }
    true
}

/// Runs a reader or a writer once between the marks, each by its name; none if there is none such.
fn once(command: &str, by: &str, kind: &str, size: usize) -> Option<()> {
    match command {
        "count" => count::once(Reader::named(by)?, Kind::named(kind)?, size),
        "count-tree" if size > 2 => {
            written::once(Writer::named(by)?, Shape::named(kind, &Shape::SCRIPTS)?, size)
        }
        "count-json" if size > 2 => {
            json_tables::once(JsonWriter::named(by)?, Shape::named(kind, &Shape::JSON)?, size)
        }
        "count-file" if (files::AROUND..=files::MOST).contains(&size) => {
            let content = Content::named(kind)?;
            file_tables::once(FileReader::named(by, content)?, content, size)
        }
        _ => return None,
    }
    Some(())
}
