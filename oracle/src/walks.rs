//! The list by walks: a use is on it when some walk comes to the use without
//! having run the declaration that the use resolves to. Nothing here knows of
//! pruning, of layers or of the order in which gotos were seen.

use crate::bodies::{bodies, Act, Body, Of};
use crate::passes::Record;
use crate::read::Tree;
use std::collections::{HashMap, HashSet};

pub fn by_walks(tree: &Tree) -> Vec<Record> {
    bodies(tree).iter().flat_map(skippable).collect()
}

/// The uses of one body that a walk reaches past their declaration, in order.
pub fn skippable(body: &Body) -> Vec<Record> {
    let mut labels = HashMap::new();
    let mut locals = HashSet::new();
    for (at, act) in body.acts.iter().enumerate() {
        match *act {
            Act::Label(label) => drop(labels.insert(label, at)),
            // Parameters count as run.
            Act::Use { of: Of::Declared(local), .. } => drop(locals.insert(local)),
            _ => (),
        }
    }
    let reached: HashMap<usize, Vec<bool>> =
        locals.into_iter().map(|local| (local, reach(body, &labels, local))).collect();
    let uses = body.acts.iter().enumerate().filter_map(|(at, act)| match *act {
        Act::Use { offset, of: Of::Declared(local) } if reached[&local][at] => {
            Some((offset, local))
        }
        _ => None,
    });
    uses.collect()
}

/// Which acts some walk comes to without running `local` on the way.
fn reach(body: &Body, labels: &HashMap<usize, usize>, local: usize) -> Vec<bool> {
    let mut reached = vec![false; body.acts.len() + 1];
    let mut open = vec![0];
    while let Some(at) = open.pop() {
        if std::mem::replace(&mut reached[at], true) || at == body.acts.len() {
            continue;
        }
        match body.acts[at] {
            Act::Run(run) if run == local => (),
            Act::Goto(Some(label)) => open.extend([at + 1, labels[&label]]),
            Act::Fork(other) => open.extend([at + 1, other]),
            Act::Jump(other) => open.push(other),
            _ => open.push(at + 1),
        }
    }
    reached
}
