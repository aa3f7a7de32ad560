//! Lengths of pools by chance, drawn in eighths of a row: whatever the width of a row is, a seed gives
//! pools of the same number of rows, and takes the same draws.
use super::rng::Rng;
use crate::model::ROW;

/// The parts of a row in which lengths are drawn.
pub const EIGHTHS: usize = 8;

/// The words of so many eighths: the rows that are whole, and one word left over for each other part,
/// but for seven parts one word less than a row.
pub fn words(eighths: usize) -> usize {
    let (rows, left) = (eighths / EIGHTHS, eighths % EIGHTHS);
    rows * ROW + if left == EIGHTHS - 1 { ROW - 1 } else { left }
}

/// The eighths of so many words, which `words` takes back to a length of as many rows.
pub fn eighths(words: usize) -> usize {
    let (rows, left) = (words / ROW, words % ROW);
    rows * EIGHTHS + left.min(EIGHTHS - 1)
}

/// Words left over behind the last row of a pool.
pub fn left_over(rng: &mut Rng) -> usize {
    words(rng.below(EIGHTHS))
}

#[cfg(test)]
mod tests {
    use super::*;

    #[test]
    fn eighths_and_words_have_the_same_rows() {
        for length in 0..5 * EIGHTHS {
            assert_eq!(words(length) / ROW, length / EIGHTHS);
            assert_eq!(eighths(words(length)), length);
        }
        for length in 0..5 * ROW {
            assert_eq!(eighths(length) / EIGHTHS, length / ROW);
        }
    }

    #[test]
    fn no_word_and_one_less_than_a_row_are_left_over() {
        let mut rng = Rng::new(1);
        let left: Vec<usize> = (0..100).map(|_| left_over(&mut rng)).collect();
        assert!(
            left.contains(&0) && left.contains(&(ROW - 1)) && left.iter().all(|&one| one < ROW)
        );
    }
}
