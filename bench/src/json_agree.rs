//! Whether all writers of JSON agree about a tree, asked before it is timed.
use crate::json_trees::Tree;
use crate::json_writers::{Answer, OURS, PLAIN};

/// Stands in every byte of a slice before a writer is asked.
const FILLING: u8 = 0xA5;

/// A text has at first room for so many bytes of each row.
const ROW_BYTES: usize = 128;

/// How much more room a text is lent than it takes.
const MORE: usize = 100;

/// The text of a tree; stops the bench if it is refused, or if the writers differ.
pub fn text_of(tree: &Tree) -> Vec<u8> {
    let length = length_of(tree);
    let (answer, text) = agreed(tree, length);
    assert_eq!(answer, [0, length as u64, 0, 0], "another answer with just enough room");
    let zeros = [0; MORE];
    let longer = [&text[..], &zeros[..]].concat();
    assert!(agreed(tree, length + MORE) == (answer, longer), "another text with plenty of room");
    let shorter = vec![0; length - 1];
    assert!(agreed(tree, length - 1) == ([32, 0, 0, 0], shorter), "too little room is enough");
    text
}

/// How long the text of a tree is.
fn length_of(tree: &Tree) -> usize {
    let mut room = ROW_BYTES * tree.rows();
    loop {
        match (PLAIN.write)(tree, &mut vec![FILLING; room]) {
            [0, length, 0, 0] => return length as usize,
            [32, 0, 0, 0] => room *= 2,
            answer => panic!("no text: {:?}", answer),
        }
    }
}

/// What all writers make of a tree, the answer and every byte of a slice of so many.
fn agreed(tree: &Tree, room: usize) -> (Answer, Vec<u8>) {
    let by = |write: fn(&Tree, &mut [u8]) -> Answer| {
        let mut text = vec![FILLING; room];
        (write(tree, &mut text), text)
    };
    let plain = by(PLAIN.write);
    for writer in OURS.iter().filter(|writer| tree.rows() <= writer.most) {
        assert!(by(writer.write) == plain, "{} and the C writer differ", writer.name);
    }
    plain
}
