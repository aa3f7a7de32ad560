//! Random trees that fit: any kind in each slot that takes it, any mark, any place.
use super::held::Tree;
use super::slots::{self, bare_kinds, is_expression, marks, slots, Many, Takes};
use crate::gen::rng::Rng;
use crate::kinds::{self, GROUPED};

/// Grows one tree.
pub struct Grower<'a> {
    rng: &'a mut Rng,
    /// About how many rows may still come.
    left: usize,
    /// Whether places are any words, and not small numbers only.
    is_wild: bool,
}

/// An owner of a row, and the slot that it is to stand in.
pub type Owner = (u32, usize);

impl Grower<'_> {
    pub fn new(rng: &mut Rng) -> Grower<'_> {
        let left = if rng.chance(1, 8) { 30 + rng.below(200) } else { 2 + rng.below(40) };
        let is_wild = rng.chance(1, 10);
        Grower { rng, left, is_wild }
    }

    /// A tree that a slot takes, its forms nested up to `depth`.
    pub fn tree(&mut self, takes: Takes, depth: usize) -> Tree {
        let depth = if self.left == 0 { 0 } else { depth };
        self.left = self.left.saturating_sub(1);
        let kind = self.kind(takes, depth);
        let mut tree = self.row(kind, takes != Takes::PlainIdentifier);
        for (trees, slot) in tree.slots.iter_mut().zip(slots(kind)) {
            for _ in 0..self.count(slot.many, depth) {
                trees.push(self.tree(slot.takes, depth.saturating_sub(1)));
            }
        }
        tree
    }

    /// The smallest tree of a kind.
    pub fn small(&mut self, kind: u32) -> Tree {
        let mut tree = self.row(kind, true);
        for (trees, slot) in tree.slots.iter_mut().zip(slots(kind)) {
            if slot.is_needed() {
                trees.push(self.tree(slot.takes, 0));
            }
        }
        tree
    }

    /// A row of a kind, its slots empty; where it may be in brackets, it is so now and then.
    fn row(&mut self, kind: u32, may_group: bool) -> Tree {
        let grouped = may_group && is_expression(kind) && self.rng.chance(1, 4);
        let mark = self.rng.below(marks(kind).max(1) as usize) as u32;
        let mark = mark + if grouped { GROUPED } else { 0 };
        Tree { kind, mark, place: self.place(), ..Tree::default() }
    }

    /// A kind that is taken: at depth 0 one that needs nothing in its slots, and above 2 mostly one
    /// that has slots, if there is one.
    fn kind(&mut self, takes: Takes, depth: usize) -> u32 {
        if takes == Takes::Root && self.rng.chance(1, 3) {
            return kinds::BLOCK;
        }
        let mut taken = takes.kinds();
        let bare = bare_kinds();
        let is_bare = |kind: &u32| bare.contains(kind);
        let is_rich = |&kind: &u32| !slots(kind).is_empty();
        if depth == 0 && taken.iter().any(is_bare) {
            taken.retain(is_bare);
        } else if depth > 2 && self.rng.chance(2, 3) && taken.iter().any(is_rich) {
            taken.retain(is_rich);
        }
        self.rng.pick(&taken)
    }

    fn count(&mut self, many: Many, depth: usize) -> usize {
        let most = if depth == 0 { 1 } else { [2, 3, 4, 4, 7][self.rng.below(5)] };
        match many {
            Many::One => 1,
            Many::AtMostOne => self.rng.below(most.min(2)),
            Many::Any => self.rng.below(most),
            Many::OneOrMore => 1 + self.rng.below(most),
        }
    }

    fn place(&mut self) -> u32 {
        if !self.is_wild {
            return self.rng.below(1000) as u32;
        }
        let any = self.rng.below(1 << 32) as u32;
        self.rng.pick(&[0, 1, 65_535, 65_536, u32::MAX, any, any])
    }

    /// A tree around another: that is the only one in a slot of its owner, whose other slots are
    /// small.
    pub fn around(&mut self, inner: Tree, (kind, index): Owner) -> Tree {
        let mut owner = self.small(kind);
        owner.slots[index] = vec![inner];
        owner
    }

    /// A nest of forms: `open` readers, or one more or two, are open at once where it is read.
    pub fn nest(&mut self, open: usize) -> Tree {
        self.nest_until(|tree| tree.open() >= open)
    }

    /// A nest of forms that can be a root, one around the other until there are enough.
    pub fn nest_until(&mut self, is_enough: impl Fn(&Tree) -> bool) -> Tree {
        let core =
            self.rng.pick(&[kinds::IDENTIFIER, kinds::ATTRIBUTE, kinds::ARRAY, kinds::BLOCK]);
        let mut tree = self.small(core);
        let stays = self.rng.pick(&[1, 14, 15, 16]);
        while !is_enough(&tree) || !Takes::Root.takes(tree.kind, tree.mark) {
            let owner = self.owner(&tree, stays);
            tree = self.around(tree, owner);
        }
        tree
    }

    /// An owner for a tree; `stays` of sixteen times one that is an expression if the tree is.
    fn owner(&mut self, tree: &Tree, stays: usize) -> Owner {
        let mut owners = owners(tree.kind, tree.mark);
        let is_near = |&(kind, _): &Owner| is_expression(kind) || kind == kinds::PAIR;
        if is_expression(tree.kind) && self.rng.chance(stays, 16) {
            owners.retain(is_near);
        }
        self.rng.pick(&owners)
    }
}

/// All owners whose slot takes a row of this kind and mark.
pub fn owners(kind: u32, mark: u32) -> Vec<Owner> {
    let taking = slots::all().filter(|(_, _, slot)| slot.takes.takes(kind, mark));
    taking.map(|(owner, index, _)| (owner, index)).collect()
}

/// The tree of a kind that has no choice: each slot that needs one holds the first kind that it
/// takes.
pub fn least(kind: u32) -> Tree {
    let mut tree = Tree { kind, place: kind, ..Tree::default() };
    for (trees, slot) in tree.slots.iter_mut().zip(slots(kind)) {
        if slot.is_needed() {
            trees.push(least(slot.takes.kinds()[0]));
        }
    }
    tree
}

#[cfg(test)]
mod tests {
    use super::*;

    #[test]
    fn what_grows_fits() {
        let mut rng = Rng::new(9);
        let mut met = [0; 47];
        for _ in 0..2000 {
            let tree = Grower::new(&mut rng).tree(Takes::Root, 4);
            assert!(tree.fits(Takes::Root), "{:?}", tree);
            met[tree.kind as usize] += 1;
        }
        let roots = (1..18).chain(32..47);
        assert!(roots.clone().all(|kind| met[kind] > 0) && met[18] + met[19] == 0, "{:?}", met);
    }

    #[test]
    fn nests_fit_and_are_as_deep_as_asked() {
        let mut rng = Rng::new(10);
        for _ in 0..500 {
            let open = 3 + rng.below(64);
            let nest = Grower::new(&mut rng).nest(open);
            assert!(nest.fits(Takes::Root), "{:?}", nest);
            assert!((open..open + 4).contains(&nest.open()), "{} for {}", nest.open(), open);
        }
    }
}
