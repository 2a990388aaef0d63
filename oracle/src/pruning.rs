//! An independent model of goto pruning, told the short way: a label prunes
//! what its own layer declared after the first goto to it. It is compared with
//! what the original refuses (`skips.rs`), which intersects sets instead.

use crate::bodies::{Act, Body, Of};
use crate::passes::Record;
use std::collections::{HashMap, HashSet};

/// The uses that pruning refuses in one body, in order.
pub fn pruned(body: &Body) -> Vec<Record> {
    let mut layers: Vec<Vec<usize>> = Vec::new();
    // How many declarations had run, in text order, at the first goto to a label.
    let mut first_goto: HashMap<usize, usize> = HashMap::new();
    let mut number: HashMap<usize, usize> = HashMap::new();
    let mut pruned: HashSet<usize> = HashSet::new();
    let mut poisoned: HashSet<usize> = HashSet::new();
    let mut refused = Vec::new();
    for act in &body.acts {
        match *act {
            Act::Enter => layers.push(Vec::new()),
            Act::Leave => drop(layers.pop()),
            Act::Run(local) => {
                number.insert(local, number.len());
                layers.last_mut().unwrap().push(local);
            }
            Act::Goto(Some(label)) => {
                first_goto.entry(label).or_insert(number.len());
            }
            Act::Label(label) => {
                if let Some(since) = first_goto.remove(&label) {
                    let layer = layers.last().unwrap().iter();
                    pruned.extend(layer.filter(|local| number[local] >= since));
                }
            }
            Act::Use { offset, of: Of::Declared(local) } => {
                if pruned.remove(&local) {
                    poisoned.insert(local);
                }
                if poisoned.contains(&local) {
                    refused.push((offset, local));
                }
            }
            Act::Use { .. } | Act::Goto(None) | Act::Fork(_) | Act::Jump(_) => (),
        }
    }
    refused
}
