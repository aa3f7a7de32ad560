//! Reads a token file on standard input and prints its tree as an outline, or why it is refused.
//!
//! ```text
//! outline            a line for each row, indented: kind, operator or flags, place
//! outline --rows     the lines of the program `outline`: the answer, and the words of each row
//! outline --strict   the same as either, in strict mode and not in the old one
//! ```
//!
//! The status is 0 where the script is accepted, 1 where it is refused, 2 where the command or its
//! input can't be read.
use shigthapul::{read_file, whole_script, Mode, Refusal, Tree, ROW_WORDS};
use std::io::{self, Read, Write};
use std::process::ExitCode;

/// The buffers of the program `outline`: the longest file and a byte more, its tokens, its rows.
const BYTES: u64 = 60_001;
const TOKENS: usize = 20_000;
const ROWS: usize = 1_800;

/// What was read: a tree, or a refusal.
type Script<'a> = Result<Tree<'a>, Refusal>;

/// A way to print it.
type Print = fn(&mut dyn Write, Script) -> io::Result<()>;

fn main() -> ExitCode {
    let words: Vec<String> = std::env::args().skip(1).collect();
    let words: Vec<&str> = words.iter().map(String::as_str).collect();
    let (mode, rest) = match words[..] {
        ["--strict", ref rest @ ..] => (Mode::Strict, rest),
        ref rest => (Mode::Old, rest),
    };
    let print = match rest {
        [] => print_outline,
        ["--rows"] => print_rows,
        _ => {
            eprintln!("usage: outline [--strict] [--rows] < FILE.tok");
            return ExitCode::from(2);
        }
    };
    match outline(mode, print) {
        Ok(accepted) => ExitCode::from(u8::from(!accepted)),
        Err(error) => {
            eprintln!("outline: {}", error);
            ExitCode::from(2)
        }
    }
}

/// Reads the file and prints what comes of it; says whether it was accepted.
fn outline(mode: Mode, print: Print) -> io::Result<bool> {
    let mut bytes = vec![];
    io::stdin().lock().take(BYTES).read_to_end(&mut bytes)?;
    let mut tokens = vec![0; TOKENS];
    let mut pool = vec![0; ROW_WORDS * ROWS];
    let script =
        read_file(&bytes, &mut tokens).and_then(|tokens| whole_script(tokens, &mut pool, mode));
    let mut out = io::BufWriter::new(io::stdout().lock());
    print(&mut out, script)?;
    out.flush()?;
    Ok(script.is_ok())
}

/// Prints the tree, or the refusal with what it means.
fn print_outline(out: &mut dyn Write, script: Script) -> io::Result<()> {
    match script {
        Err(refusal) => writeln!(out, "{}", refusal),
        Ok(tree) => tree.walk().try_for_each(|(depth, node)| {
            writeln!(out, "{:indent$}{}", "", node, indent = 2 * depth)
        }),
    }
}

/// Prints the lines of the program `outline`.
fn print_rows(out: &mut dyn Write, script: Script) -> io::Result<()> {
    let tree = match script {
        Err(refusal) => return writeln!(out, "no {} {}", refusal.number(), refusal.place),
        Ok(tree) => tree,
    };
    let root = tree.root().map_or(0, |root| root.reference());
    writeln!(out, "ok {} {} {}", root, tree.len(), tree.last_place())?;
    tree.nodes().try_for_each(|node| {
        let words = node.row().words().map(|word| word.to_string());
        writeln!(out, "{}", words.join(" "))
    })
}
