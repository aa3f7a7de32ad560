//! Every sample token file gives the lines of its `.out` file in the old mode; and in strict mode too, unless its
//! refusal is 30.
mod common;
use shigthapul::{read_file, whole_script, Mode, Refusal, ROW_WORDS};
use std::fmt::Write;
use std::fs;
use std::path::Path;

/// The buffers of the program `outline`.
const TOKENS: usize = 20_000;
const ROWS: usize = 1_800;

/// The lines of a token file, read in a mode.
fn lines(file: &[u8], mode: Mode) -> String {
    rows(file, mode).unwrap_or_else(|no| format!("no {} {}\n", no.number(), no.place))
}

/// The lines of its answer and of its rows.
fn rows(file: &[u8], mode: Mode) -> Result<String, Refusal> {
    let mut words = vec![0; TOKENS];
    let mut pool = vec![common::DIRT; ROW_WORDS * ROWS];
    let tree = whole_script(read_file(file, &mut words)?, &mut pool, mode)?;
    let root = tree.root().expect("a script has a root").reference();
    let mut text = format!("ok {} {} {}\n", root, tree.len(), tree.last_place());
    for node in tree.nodes() {
        let words = node.row().words().map(|word| word.to_string());
        writeln!(text, "{}", words.join(" ")).unwrap();
    }
    Ok(text)
}

/// Compares one sample with its `.out` file.
fn compare(sample: &Path) {
    let expected = fs::read_to_string(sample.with_extension("out")).unwrap();
    let [old, strict] = Mode::ALL.map(|mode| lines(&fs::read(sample).unwrap(), mode));
    assert_eq!(old, expected, "{}", sample.display());
    assert!(strict == old || strict.starts_with("no 30 "), "{}", sample.display());
}

#[test]
fn every_sample_gives_its_lines() {
    let files = fs::read_dir(common::repository("samples")).unwrap();
    let paths = files.map(|file| file.unwrap().path());
    let samples: Vec<_> =
        paths.filter(|path| path.extension().map_or(false, |end| end == "tok")).collect();
    assert!(samples.len() >= 5);
    samples.iter().for_each(|sample| compare(sample));
}
