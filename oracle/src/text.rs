//! The text form of token arrays, by way of `tools/tokens`, which alone knows it.
use std::io::{self, Write};
use std::process::{Command, Stdio};

const TOOL: &str = concat!(env!("CARGO_MANIFEST_DIR"), "/../tools/tokens");

/// Longer arrays are cut for people.
const READABLE: usize = 400;

/// One array as text; as hexadecimal words if the tool can't be run.
pub fn of_words(words: &[u16]) -> String {
    let shown = &words[..words.len().min(READABLE)];
    let hex: Vec<String> = shown.iter().map(|word| format!("{:04X}", word)).collect();
    let hex = hex.join(" ");
    let text = run("from-words", &hex).unwrap_or(hex);
    let more = if shown.len() < words.len() { " .." } else { "" };
    format!("{}{}", text.trim_end(), more)
}

/// The arrays that the lines of `text` stand for.
pub fn to_words(text: &str) -> io::Result<Vec<Vec<u16>>> {
    let hex = run("to-words", text)?;
    let bad = |_| io::Error::new(io::ErrorKind::InvalidData, "tools/tokens wrote no words");
    hex.lines()
        .map(|line| line.split_whitespace().map(|word| u16::from_str_radix(word, 16)).collect())
        .collect::<Result<_, _>>()
        .map_err(bad)
}

/// Runs one command of the tool, one array a line.
fn run(command: &str, input: &str) -> io::Result<String> {
    let mut child = Command::new("python3")
        .args([TOOL, command, "--lines"])
        .stdin(Stdio::piped())
        .stdout(Stdio::piped())
        .spawn()?;
    let mut stdin = child.stdin.take().expect("it was asked for");
    stdin.write_all(input.as_bytes())?;
    stdin.write_all(b"\n")?;
    drop(stdin);
    let output = child.wait_with_output()?;
    if !output.status.success() {
        return Err(io::Error::new(io::ErrorKind::InvalidInput, "tools/tokens refused the text"));
    }
    String::from_utf8(output.stdout).map_err(|_| io::ErrorKind::InvalidData.into())
}
