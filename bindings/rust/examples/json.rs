//! Reads a token file on standard input, and prints the tree of its script as a JSON text on one line.
//!
//! ```text
//! json            reads in the old mode
//! json --strict   reads in strict mode
//! ```
//!
//! The status is 0 where the text is written, 1 where it is refused, 2 where the command or its input
//! can't be read.
mod command;
use command::TOKENS;
use shigthapul::{read_file, whole_script, Mode, Refusal, TOKEN_WORDS};
use std::process::ExitCode;

fn main() -> ExitCode {
    command::run("json", |file, mode| told(file, mode).map(|text| text + "\n"))
}

/// The JSON text of a file's script.
fn told(file: &[u8], mode: Mode) -> Result<String, Refusal> {
    let mut words = vec![0; TOKENS];
    let words = read_file(file, &mut words)?;
    let mut pool = vec![0; TOKEN_WORDS * words.len()];
    whole_script(words, &mut pool, mode)?.to_json(file)
}
