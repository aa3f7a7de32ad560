//! What a JSON text tells: a tree with the values of its payloads.
use super::payload::{class_of, value, Value};
use crate::files::Field;
use crate::trees::held::Tree;
use crate::trees::slots::{slots, Slot};

#[derive(Clone, Debug, PartialEq)]
pub struct Told {
    pub kind: u32,
    pub mark: u32,
    pub place: u32,
    pub payload: Option<Value>,
    /// As many as the kind has.
    pub slots: Vec<Part>,
}

/// What a slot holds: at most one tree, or a list.
#[derive(Clone, Debug, PartialEq)]
pub enum Part {
    One(Option<Box<Told>>),
    List(Vec<Told>),
}

impl Told {
    /// A tree that fits, with its values out of a file's fields; None if a place isn't the number of a
    /// field of the class that is needed.
    pub fn of(tree: &Tree, fields: &[Field]) -> Option<Told> {
        let payload = match class_of(tree.kind) {
            None => None,
            Some(class) => {
                let field = fields.get(tree.place as usize).filter(|field| field.class == class)?;
                Some(value(tree.kind, *field))
            }
        };
        let given = slots(tree.kind).iter().zip(&tree.slots);
        let slots = given.map(|(slot, trees)| part(*slot, trees, fields)).collect::<Option<_>>()?;
        Some(Told { kind: tree.kind, mark: tree.mark, place: tree.place, payload, slots })
    }

    /// How many of its rows have a payload.
    pub fn payloads(&self) -> usize {
        let inner: usize = self.slots.iter().flat_map(Part::trees).map(Told::payloads).sum();
        inner + usize::from(self.payload.is_some())
    }
}

impl Part {
    /// Its trees.
    fn trees(&self) -> Vec<&Told> {
        match self {
            Part::One(one) => one.iter().map(|tree| &**tree).collect(),
            Part::List(trees) => trees.iter().collect(),
        }
    }
}

fn part(slot: Slot, trees: &[Tree], fields: &[Field]) -> Option<Part> {
    let mut told = trees.iter().map(|tree| Told::of(tree, fields)).collect::<Option<Vec<_>>>()?;
    Some(if slot.is_list() { Part::List(told) } else { Part::One(told.pop().map(Box::new)) })
}
