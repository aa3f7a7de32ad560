//! Iterators over the nodes of a tree.
use crate::Node;
use std::iter::FusedIterator;

/// The members of a slot, by [`Node::list`].
#[derive(Clone, Debug)]
pub struct List<'a> {
    rest: Option<Node<'a>>,
}

impl<'a> List<'a> {
    /// A node and those behind it.
    pub(crate) fn new(first: Option<Node<'a>>) -> List<'a> {
        List { rest: first }
    }
}

impl<'a> Iterator for List<'a> {
    type Item = Node<'a>;

    fn next(&mut self) -> Option<Node<'a>> {
        let node = self.rest?;
        self.rest = node.next_in_list();
        Some(node)
    }
}

impl FusedIterator for List<'_> {}

/// Every node with its depth, a whole before its parts, by [`Tree::walk`](crate::Tree::walk).
#[derive(Clone, Debug)]
pub struct Walk<'a> {
    /// What is still to be visited, the next one last.
    waiting: Vec<(usize, Node<'a>)>,
}

impl<'a> Walk<'a> {
    /// A node and all below it.
    pub(crate) fn new(root: Option<Node<'a>>) -> Walk<'a> {
        Walk { waiting: root.map(|node| (0, node)).into_iter().collect() }
    }
}

impl<'a> Iterator for Walk<'a> {
    type Item = (usize, Node<'a>);

    fn next(&mut self) -> Option<(usize, Node<'a>)> {
        let (depth, node) = self.waiting.pop()?;
        self.waiting.extend(node.next_in_list().map(|behind| (depth, behind)));
        let slots = (0..node.row().children.len()).rev();
        self.waiting.extend(slots.filter_map(|slot| Some((depth + 1, node.child(slot)?))));
        Some((depth, node))
    }
}

impl FusedIterator for Walk<'_> {}
