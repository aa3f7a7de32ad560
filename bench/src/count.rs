//! One read between two marks that a counter of instructions knows by their names.
use crate::agree;
use crate::readers::{self, Reader, ROW};
use crate::scripts::{script, Kind};

#[no_mangle]
#[inline(never)]
pub extern "C" fn count_begin() {
    leave(1);
}

#[no_mangle]
#[inline(never)]
pub extern "C" fn count_end() {
    leave(2);
}

/// Something that keeps the marks from being left out, or made one.
fn leave(number: u32) {
    let mut kept = 0;
    unsafe { std::ptr::write_volatile(&mut kept, number) };
}

/// Reads a script once between the marks, into a pool of just the rows it takes.
pub fn once(reader: Reader, kind: Kind, length: usize) {
    let tokens = script(kind, length, 0);
    let rows = agree::rows_of(&tokens);
    let mut pool = vec![0; rows * ROW];
    match reader {
        Reader::Original => {
            let mut parser = readers::prepared(&tokens);
            count_begin();
            let tree = readers::original(&mut parser);
            count_end();
            drop(tree);
        }
        Reader::Ours => between(readers::ours, &tokens, &mut pool),
        Reader::Strict => between(readers::strict, &tokens, &mut pool),
        Reader::Plain => between(readers::plain, &tokens, &mut pool),
    }
    println!("{} {} {} {}", reader.name(), kind.name(), length, rows);
}

fn between(read: fn(&[u16], &mut [u32]) -> [u64; 4], tokens: &[u16], pool: &mut [u32]) {
    count_begin();
    let answer = read(tokens, pool);
    count_end();
    assert_eq!(answer[0], 0);
}
