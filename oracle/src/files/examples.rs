//! The worked examples of token files.
use super::outline;

const TABLE: &str = include_str!("../../files.txt");

/// A file by its name, and what the printing program must write as the first line to it.
pub struct Example {
    pub name: &'static str,
    pub file: Vec<u8>,
    expected: &'static str,
}

impl Example {
    /// Whether the model gives that line.
    pub fn holds(&self) -> bool {
        outline(&self.file).lines().next() == Some(self.expected)
    }
}

/// The table's examples.
pub fn all() -> Vec<Example> {
    let texts = TABLE.lines().map(str::trim);
    let lines: Vec<&str> =
        texts.filter(|line| !line.starts_with('#') && !line.is_empty()).collect();
    lines.chunks(2).map(|pair| example(pair[0], pair[1])).collect()
}

/// The example of a line with its name and its bytes.
fn example(head: &'static str, expected: &'static str) -> Example {
    let mut parts = head.split_whitespace();
    let name = parts.next().expect("each file has a name");
    Example { name, file: parts.flat_map(bytes).collect(), expected }
}

/// Bytes in hexadecimal, with `N*` in front if they are repeated.
pub fn bytes(text: &str) -> Vec<u8> {
    let (times, digits) = text.split_once('*').unwrap_or(("1", text));
    let byte = |at| u8::from_str_radix(&digits[at..at + 2], 16).expect("hexadecimal digits");
    let once: Vec<u8> = (0..digits.len()).step_by(2).map(byte).collect();
    once.repeat(times.parse().expect("a count"))
}

#[cfg(test)]
mod tests {
    use super::*;
    use std::fs;
    use std::path::PathBuf;

    /// A file or folder of the recorded examples.
    fn recorded(name: &str) -> PathBuf {
        PathBuf::from(concat!(env!("CARGO_MANIFEST_DIR"), "/../samples/unicode")).join(name)
    }

    #[test]
    fn every_example_holds() {
        let examples = all();
        assert!(examples.len() > 30);
        examples.iter().for_each(|example| assert!(example.holds(), "{}", example.name));
    }

    #[test]
    fn a_wrong_expectation_is_noticed() {
        let empty = example("x 02 3*00", "no 1 0");
        assert_eq!(empty.file, [2, 0, 0, 0]);
        assert!(!empty.holds());
    }

    #[test]
    fn the_recorded_files_are_those_of_the_table() {
        let examples = all();
        let files = fs::read_dir(recorded("")).unwrap().count();
        assert_eq!(files, 2 * examples.len());
        for Example { name, file, .. } in examples {
            assert!(fs::read(recorded(&format!("{}.tok", name))).unwrap() == file, "{}", name);
            let lines = fs::read_to_string(recorded(&format!("{}.out", name))).unwrap();
            assert_eq!(lines, outline(&file), "{}", name);
        }
    }
}
