//! Lays a tree out in a pool: children before their owners, the members of a list in their order,
//! and else in any order, with other rows between.
use super::held::Tree;
use super::slots::bare_kinds;
use crate::gen::rng::Rng;
use crate::model::{CHILDREN, END, NEXT, ROW};
use std::collections::BinaryHeap;

/// Which of the rows that may come next does: the one that a reader would build, the one that is
/// nearest to the root, or any.
#[derive(Clone, Copy, Debug, PartialEq)]
pub enum Order {
    Post,
    OwnersFirst,
    Any,
}

pub const ORDERS: [Order; 3] = [Order::Post, Order::OwnersFirst, Order::Any];

/// A row whose references aren't known yet: they are the numbers of nodes.
struct Node {
    head: [u32; 3],
    children: [Option<usize>; 4],
    next: Option<usize>,
}

/// The pool of a tree, and the root's reference. Between its rows are up to `gaps` other ones.
pub fn lay(rng: &mut Rng, tree: &Tree, order: Order, gaps: usize) -> (Vec<u32>, usize) {
    let mut nodes = vec![];
    let root = flatten(tree, &mut nodes);
    let mut rows = vec![0; nodes.len()];
    let mut used = 0;
    for node in sequence(rng, &nodes, order) {
        used += 1 + rng.below(gaps + 1);
        rows[node] = used;
    }
    let mut pool: Vec<u32> = (0..used).flat_map(|_| other_row(rng, used)).collect();
    for (node, &row) in nodes.iter().zip(&rows) {
        pool[(row - 1) * ROW..][..ROW].copy_from_slice(&words(node, &rows));
    }
    (pool, rows[root])
}

/// The nodes of a tree, parts before wholes; the number of its own.
fn flatten(tree: &Tree, nodes: &mut Vec<Node>) -> usize {
    let mut children = [None; 4];
    for (child, trees) in children.iter_mut().zip(&tree.slots) {
        let mut last: Option<usize> = None;
        for part in trees {
            let node = flatten(part, nodes);
            match last {
                None => *child = Some(node),
                Some(before) => nodes[before].next = Some(node),
            }
            last = Some(node);
        }
    }
    nodes.push(Node { head: [tree.kind, tree.mark, tree.place], children, next: None });
    nodes.len() - 1
}

/// The nodes in an order in which each comes behind those that have to be before it.
fn sequence(rng: &mut Rng, nodes: &[Node], order: Order) -> Vec<usize> {
    let (mut waits, mut behind) = (vec![0; nodes.len()], vec![vec![]; nodes.len()]);
    let mut put = |before: usize, after: usize| {
        waits[after] += 1;
        behind[before].push(after);
    };
    for (number, node) in nodes.iter().enumerate() {
        node.children.iter().flatten().for_each(|&child| put(child, number));
        node.next.iter().for_each(|&next| put(number, next));
    }
    let mut key = |node: usize| match order {
        Order::Post => nodes.len() - node,
        Order::OwnersFirst => node,
        Order::Any => rng.below(nodes.len()),
    };
    let free = (0..nodes.len()).filter(|&node| waits[node] == 0);
    let mut ready: BinaryHeap<(usize, usize)> = free.map(|node| (key(node), node)).collect();
    let mut sequence = vec![];
    while let Some((_, node)) = ready.pop() {
        sequence.push(node);
        for &after in &behind[node] {
            waits[after] -= 1;
            if waits[after] == 0 {
                ready.push((key(after), after));
            }
        }
    }
    sequence
}

/// A node's words once all references are known.
fn words(node: &Node, rows: &[usize]) -> [u32; ROW] {
    let reference = |to: Option<usize>| to.map_or(0, |node| rows[node] as u32);
    let mut words = [0; ROW];
    words[..3].copy_from_slice(&node.head);
    words[CHILDREN].copy_from_slice(&node.children.map(reference));
    words[NEXT] = reference(node.next);
    words
}

/// A row that nothing reaches: one that is right by itself, or words that may look like a row's.
pub fn other_row(rng: &mut Rng, rows: usize) -> [u32; ROW] {
    let mut row = [0; ROW];
    if rng.chance(1, 2) {
        row[0] = rng.pick(&bare_kinds());
        row[2] = rng.below(1000) as u32;
        return row;
    }
    row[..3].copy_from_slice(&[rng.below(48) as u32, rng.pick(&[0, 0, 1, 256]), 0]);
    for word in &mut row[CHILDREN.start..END] {
        *word = if rng.chance(1, 2) { 0 } else { rng.below(rows + 2) as u32 };
    }
    row
}

#[cfg(test)]
mod tests {
    use super::*;
    use crate::trees::examples::pool_of;
    use crate::trees::grow::Grower;
    use crate::trees::held;
    use crate::trees::pool::Pool;
    use crate::trees::slots::Takes;

    #[test]
    fn a_tree_comes_back_from_every_order() {
        let mut rng = Rng::new(4);
        for _ in 0..300 {
            let tree = Grower::new(&mut rng).tree(Takes::Root, 4);
            for order in ORDERS {
                let gaps = rng.below(3);
                let (pool, root) = lay(&mut rng, &tree, order, gaps);
                let back = held::tree(Pool(&pool), root).expect("it is a tree");
                assert!(back.is_same(&tree) && back.size() == tree.size());
                assert!(order != Order::Post || gaps > 0 || root == tree.size());
            }
        }
    }

    #[test]
    fn owners_can_stand_before_the_members_of_their_lists() {
        let leaf = || Tree { kind: 3, ..Tree::default() };
        let mut tree = Tree { kind: 8, ..Tree::default() };
        tree.slots[0] = vec![leaf(), leaf(), leaf()];
        let (pool, root) = lay(&mut Rng::new(1), &tree, Order::OwnersFirst, 0);
        assert_eq!(root, 2);
        assert_eq!(pool[..2 * ROW], pool_of("3 0 0 0 0 0 0 3/8 0 0 1"));
    }
}
