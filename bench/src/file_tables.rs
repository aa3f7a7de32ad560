//! The tables of token files: every kind and size, how time grows; and one run between two marks.
use crate::columns;
use crate::count::{count_begin, count_end};
use crate::file_agree;
use crate::file_readers::FileReader;
use crate::files::{Content, File};
use crate::timing;

/// One line of a table.
struct Line {
    /// The most bytes that its files have.
    size: usize,
    files: usize,
    bytes: usize,
    fields: usize,
    /// Nanoseconds for a byte, in the order of the readers.
    times: Vec<f64>,
}

pub fn print(samples: usize) {
    file_agree::ask_plain();
    println!(
        "Processor time, best of {} samples. Each file is lent just the words that it takes.",
        samples
    );
    print_part("Files of scripts", &Content::scripts(), samples);
    print_part("Texts, each alone in a file", &Content::texts(), samples);
}

/// The table of some contents, all with the same readers; none where there is no reader.
fn print_part(title: &str, contents: &[Content], samples: usize) {
    let readers = FileReader::of(contents[0]);
    if readers.is_empty() {
        return;
    }
    let names: Vec<&str> = readers.iter().map(|reader| reader.name()).collect();
    println!("\n{:<36}ns a byte\n{}", title, head(&names));
    for &content in contents {
        let measured = |(size, files)| line(content, size, files, &readers, samples);
        let lines: Vec<Line> = content.files().into_iter().map(measured).collect();
        for line in &lines {
            println!("{}", row(content, line));
        }
        if let [from, .., to] = &lines[..] {
            columns::print_growth(&names, (from.size, &from.times), (to.size, &to.times));
        }
    }
}

fn line(
    content: Content,
    size: usize,
    files: Vec<File>,
    readers: &[FileReader],
    samples: usize,
) -> Line {
    files.iter().for_each(|file| file_agree::ask(file, content));
    let bytes = files.iter().map(|file| file.counted().len()).sum();
    let fields = files.iter().map(|file| file.words.len()).sum();
    let mut words = vec![0; fields];
    let mut sample = |which: usize, passes| {
        let read = |file: &File| readers[which].takes(file, &mut words[..file.words.len()]);
        timing::passes_over(&files, passes, read)
    };
    let times = timing::best_of(readers.len(), samples, &mut sample);
    let times = times.iter().map(|time| time / bytes as f64).collect();
    Line { size, files: files.len(), bytes, fields, times }
}

fn head(names: &[&str]) -> String {
    format!("{:<13}{:>8}{:>6}{:>9}{}", "kind", "bytes", "files", "fields", columns::heads(names))
}

fn row(content: Content, line: &Line) -> String {
    let each = |sum: usize| sum as f64 / line.files as f64;
    format!(
        "{:<13}{:>8.1}{:>6}{:>9.1}{}",
        content.name(),
        each(line.bytes),
        line.files,
        each(line.fields),
        columns::times(&line.times)
    )
}

/// Has a reader take a file once between the marks, one of at most so many bytes.
pub fn once(reader: FileReader, content: Content, most: usize) {
    let file = content.file(most, 0);
    file_agree::ask(&file, content);
    let mut words = vec![0; file.words.len()];
    count_begin();
    let taken = reader.takes(&file, &mut words);
    count_end();
    assert!(taken);
    let (bytes, fields) = (file.counted().len(), file.words.len());
    println!("{} {} {} {}", reader.name(), content.name(), bytes, fields);
}
