//! Every kind in every slot of every kind, and every mark, in pools that are right else.
use super::grow::least;
use super::held::Tree;
use crate::kinds::{self, *};

/// Kinds that are none, besides those that are.
const NO_KINDS: [u32; 5] = [0, 20, 31, 47, 300];

/// How many trees stand in the slot that is tried.
const MOST: usize = 2;

fn all_kinds() -> impl Iterator<Item = u32> + Clone {
    kinds::ALL.iter().copied().chain(NO_KINDS)
}

/// The marks around those of any kind, in brackets and out of them.
fn marks() -> impl Iterator<Item = u32> {
    let more = [255, 511, 512, 513, 65_536, u32::MAX];
    (0..26).chain(256..282).chain(more)
}

/// A tree that can be a root: pairs and names stand in a hash and behind a dot.
fn rooted(tree: Tree) -> Tree {
    let (kind, index) = match tree.kind {
        PAIR => (HASH, 0),
        NAME => (ATTRIBUTE, 1),
        _ => return tree,
    };
    let mut owner = least(kind);
    owner.slots[index] = vec![tree];
    owner
}

/// All trees of the table, right and wrong ones.
pub fn trees() -> impl Iterator<Item = Tree> {
    let by_mark = all_kinds().flat_map(|kind| marks().map(move |mark| (kind, mark)));
    let marked = by_mark.map(|(kind, mark)| rooted(Tree { mark, ..least(kind) }));
    marked.chain(all_kinds().flat_map(|kind| (0..4).flat_map(move |index| filled(kind, index))))
}

/// The trees of a kind with a slot empty, and with one or two of each kind in it.
fn filled(kind: u32, index: usize) -> impl Iterator<Item = Tree> {
    let members =
        all_kinds().flat_map(|member| [0, 1, GROUPED].map(|mark| Tree { mark, ..least(member) }));
    let lists = members.flat_map(|member| (1..=MOST).map(move |count| vec![member.clone(); count]));
    let with = move |list: Vec<Tree>| {
        let mut tree = least(kind);
        tree.slots[index] = list;
        rooted(tree)
    };
    [vec![]].into_iter().chain(lists).map(with)
}

#[cfg(test)]
mod tests {
    use super::*;
    use crate::trees::slots::Takes;

    #[test]
    fn the_table_has_right_and_wrong_trees() {
        let (right, all) = trees().fold((0, 0), |(right, all), tree| {
            (right + usize::from(tree.fits(Takes::Root)), all + 1)
        });
        assert_eq!(all, 39 * 58 + 39 * 4 * (1 + 39 * 3 * 2));
        assert!(right > 1500 && right < all / 4, "{} of {}", right, all);
    }
}
