//! Large trees: chains as deep as a pool allows, wide lists, forms around the longest array of
//! tokens, and pools that are full.
use super::grow::{least, owners, Grower, Owner};
use super::held::Tree;
use super::slots::{self, is_expression, slots};
use super::write::written;
use crate::gen::rng::Rng;
use crate::kinds::{ARRAY, INT};
use crate::model::MOST_ROWS;
use crate::words::LONGEST;

/// The forms that are an expression around one.
fn forms() -> Vec<Owner> {
    owners(ARRAY, 0).into_iter().filter(|&(kind, _)| is_expression(kind)).collect()
}

/// The owners of lists.
fn lists() -> Vec<Owner> {
    let lists = slots::all().filter(|(_, _, slot)| slot.is_list());
    lists.map(|(kind, index, _)| (kind, index)).collect()
}

/// The kinds that a list takes.
fn members((kind, index): Owner) -> Vec<u32> {
    slots(kind)[index].takes.kinds()
}

/// Forms around each other, of `rows` rows at most: one form again and again.
pub fn chain((kind, index): Owner, rows: usize) -> Tree {
    let mut tree = least(INT);
    let others = least(kind).size() - usize::from(!least(kind).slots[index].is_empty());
    for _ in 0..(rows - 1) / others {
        let mut owner = least(kind);
        owner.slots[index] = vec![tree];
        tree = owner;
    }
    tree
}

/// A list of members of one kind, each as small as may be, in a tree of `rows` rows at most.
pub fn wide((kind, index): Owner, member: u32, rows: usize) -> Tree {
    let mut owner = least(kind);
    owner.slots[index].clear();
    let count = (rows - owner.size()) / least(member).size();
    owner.slots[index] = (0..count).map(|_| least(member)).collect();
    owner
}

/// A list whose written form has about `tokens` tokens, EOF counted, and just so many if it can be.
pub fn long(rng: &mut Rng, list: Owner, tokens: usize) -> Tree {
    let (mut owner, members) = (least(list.0), members(list));
    loop {
        let left = tokens.saturating_sub(written(&owner).words.len());
        if left == 0 {
            return owner;
        }
        // Most of the way with many at once, the rest one by one.
        for _ in 0..(left / 16).max(1) {
            let member = rng.pick(&members);
            let member = Grower::new(rng).small(member);
            owner.slots[list.1].push(member);
        }
    }
}

/// A random large tree.
pub fn tree(rng: &mut Rng) -> Tree {
    let (form, list) = (rng.pick(&forms()), rng.pick(&lists()));
    let most = rng.pick(&[1_000, 10_000, MOST_ROWS - 100]);
    let (rows, open) = (100 + rng.below(most), 64 + rng.below(300));
    match rng.below(4) {
        0 => chain(form, rows),
        1 => wide(list, rng.pick(&members(list)), rows),
        2 => Grower::new(rng).nest(open),
        _ => {
            let tokens = LONGEST - 6 + rng.below(10);
            long(rng, list, tokens)
        }
    }
}

/// The trees that are always there: each form as deep, and each list as wide, as a pool allows.
pub fn fixed() -> Vec<Tree> {
    let mut trees: Vec<Tree> = forms().into_iter().map(|form| chain(form, MOST_ROWS)).collect();
    trees.extend(lists().into_iter().map(|list| wide(list, members(list)[0], MOST_ROWS)));
    // With EOF, an array of members of one token has an even number of tokens; `[ ]` has one more.
    for tokens in LONGEST - 3..=LONGEST + 3 {
        let count = (tokens - 2) / 2;
        let mut array = least(ARRAY);
        array.slots[0] = (0..count).map(|_| least(INT)).collect();
        if tokens % 2 == 1 {
            array.slots[0][0] = least(ARRAY);
        }
        trees.push(array);
    }
    trees
}

#[cfg(test)]
mod tests {
    use super::*;
    use crate::trees::slots::Takes;

    #[test]
    fn large_trees_fit_and_fill_a_pool() {
        crate::on_large_stack(|| {
            let mut sizes = vec![];
            for tree in fixed() {
                assert!(tree.fits(Takes::Root), "a tree of kind {}", tree.kind);
                sizes.push(tree.size());
            }
            assert!(sizes.iter().all(|&size| size <= MOST_ROWS) && sizes.contains(&MOST_ROWS));
        });
    }

    #[test]
    fn arrays_have_every_length_around_the_longest() {
        crate::on_large_stack(|| {
            let lengths: Vec<usize> =
                fixed().iter().rev().take(7).map(|tree| written(tree).words.len()).collect();
            let around: Vec<usize> = (LONGEST - 3..=LONGEST + 3).rev().collect();
            assert_eq!(lengths, around);
        });
    }
}
