//! Records: cases with the model's answers, for the program that retells them.
use super::case::Case;
use super::judge::{judge, Judged};
use super::tally::Tally;
use crate::questions::Question;

impl Question for Case {
    type Judged = Judged;
    type Tally = Tally;

    fn judge(&self) -> Result<Judged, String> {
        judge(self)
    }

    fn pool(&self) -> &[u32] {
        &self.pool
    }

    /// The head, the pool's words, the file, and the text if there is one.
    fn recorded(&self, judged: &Judged) -> Vec<u8> {
        let words = self.head(judged).into_iter().chain(self.pool.iter().copied());
        let mut bytes: Vec<u8> = words.flat_map(u32::to_le_bytes).collect();
        bytes.extend(&self.file);
        bytes.extend(judged.text.iter().flat_map(|text| text.bytes()));
        bytes
    }

    fn count(tally: &mut Tally, judged: &Judged) {
        tally.count(judged)
    }
}

impl Case {
    /// A head is the root; the lengths of the pool, the file and the slice; the number and value of the
    /// answer; and 0, for which other programs may have a use.
    fn head(&self, judged: &Judged) -> [u32; 7] {
        let lengths = [self.pool.len(), self.file.len(), self.room].map(|length| length as u32);
        let [pool, file, room] = lengths;
        [self.root as u32, pool, file, room, judged.number, judged.value as u32, 0]
    }
}

#[cfg(test)]
mod tests {
    use super::*;
    use crate::batch::fulls;
    use crate::files::tagged;
    use crate::trees::examples::pool_of;

    /// The record of a name: its head, and what is behind it.
    fn of(room: usize) -> (Vec<u32>, Vec<u8>) {
        let case = Case { pool: pool_of("2"), root: 1, file: tagged(7, b"a"), room };
        let bytes = case.recorded(&judge(&case).unwrap());
        (fulls(&bytes[..28]), bytes[28..].to_vec())
    }

    #[test]
    fn a_record_has_all_that_is_to_be_compared() {
        let (head, rest) = of(60);
        let text = "{\"kind\":\"identifier\",\"mark\":0,\"place\":0,\"payload\":\"a\"}";
        assert_eq!(head, [1, 9, 4, 60, 0, 54, 0]);
        assert_eq!(fulls(&rest[..36]), pool_of("2"));
        assert_eq!(rest[36..], [&[7, 0, 1, b'a'], text.as_bytes()].concat());
    }

    #[test]
    fn a_refused_case_has_no_text() {
        let (head, rest) = of(53);
        assert_eq!(head, [1, 9, 4, 53, 32, 0, 0]);
        assert_eq!(rest.len(), 36 + 4);
    }
}
