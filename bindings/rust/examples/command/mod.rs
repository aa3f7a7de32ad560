//! The command of the examples that print a text for a token file: the mode, the file, the status.
use shigthapul::{Mode, Refusal};
use std::io::{self, Read};
use std::process::ExitCode;

/// The longest file and a byte more, and its tokens.
const BYTES: u64 = 60_001;
pub const TOKENS: usize = 20_000;

/// Prints the text of the token file on standard input, in the mode that the command names, or why the
/// file is refused.
pub fn run(name: &str, text: fn(&[u8], Mode) -> Result<String, Refusal>) -> ExitCode {
    let words: Vec<String> = std::env::args().skip(1).collect();
    let words: Vec<&str> = words.iter().map(String::as_str).collect();
    let mode = match words[..] {
        [] => Mode::Old,
        ["--strict"] => Mode::Strict,
        _ => {
            eprintln!("usage: {} [--strict] < FILE.tok", name);
            return ExitCode::from(2);
        }
    };
    let mut file = vec![];
    if let Err(error) = io::stdin().lock().take(BYTES).read_to_end(&mut file) {
        eprintln!("{}: {}", name, error);
        return ExitCode::from(2);
    }
    match text(&file, mode) {
        Ok(text) => {
            print!("{}", text);
            ExitCode::SUCCESS
        }
        Err(refusal) => {
            println!("{}", refusal);
            ExitCode::FAILURE
        }
    }
}
