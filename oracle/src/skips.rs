//! The skip list, read off the unchanged original.
//!
//! The answer itself does not show every refusal: the original drops some
//! expressions after it has analysed them, and `Poisoned` does not say what it
//! stands for. So the original is run on three trees:
//!
//! 1. the tree as it came, to see which declaration statements it poisons;
//! 2. that tree changed so that nothing examined is dropped (`keep_all`), to
//!    see which uses are refused;
//! 3. the second one without gotos, where nothing is pruned, to see what each
//!    use resolves to.
//!
//! Each pair of a tree and its answer is then laid side by side, node by node.
//! README.md says why the changes leave every refusal where it was.

use crate::beside::{outcomes, Outcome};
use crate::keeping::{keep_all, without_gotos};
use crate::passes::Record;
use crate::read::Tree;
use penne::alpha::common::*;
use penne::alpha::scoper;
use std::collections::HashMap;

pub fn by_pruning(tree: &Tree) -> Vec<Record> {
    observe(tree).iter().filter_map(Use::record).collect()
}

/// An examined use.
#[derive(Debug, Clone, PartialEq, Eq)]
pub struct Use {
    pub offset: usize,
    /// The identifier that it resolves to, if that is a local's.
    pub local: Option<usize>,
    /// By pruning.
    pub refused: bool,
}

impl Use {
    /// Its record, if it was refused.
    pub fn record(&self) -> Option<Record> {
        let of = || self.local.expect("only locals are pruned");
        self.refused.then(|| (self.offset, of()))
    }
}

/// All examined uses, in the order in which the second pass looks at them.
pub fn observe(tree: &Tree) -> Vec<Use> {
    let input = &tree.declarations;
    let kept = keep_all(input, &scoper::analyze(input.clone()));
    let refusals = outcomes(&kept, &scoper::analyze(kept.clone()));
    let plain = without_gotos(&kept);
    let answered = scoper::analyze(plain.clone());
    let resolutions = outcomes(&plain, &answered);
    let locals = locals(&answered);

    assert_eq!(refusals.len(), resolutions.len());
    refusals
        .into_iter()
        .zip(resolutions)
        .map(|((offset, outcome), (same, resolution))| {
            assert_eq!(offset, same);
            let local = match resolution {
                Outcome::Stands(id) => locals.get(&id).copied(),
                _ => None,
            };
            let refused = match outcome {
                Outcome::Stands(_) | Outcome::Undefined => false,
                // Here the original itself names the declaration.
                Outcome::Skipped(declaration) => {
                    assert_eq!(local, Some(declaration));
                    true
                }
                Outcome::Poisoned => true,
            };
            Use { offset, local, refused }
        })
        .collect()
}

/// Offset by id of every parameter and declaration statement in an answer.
fn locals(answered: &[Declaration]) -> HashMap<u32, usize> {
    let mut found = HashMap::new();
    let mut add = |name: &Identifier| {
        found.insert(name.resolution_id, name.location.offset());
    };
    for declaration in answered {
        if let Declaration::Function { parameters, body, .. } = declaration {
            parameters.iter().filter_map(|p| p.name.as_ref().ok()).for_each(&mut add);
            for statement in body.iter().flat_map(|body| &body.statements) {
                each_declared(statement, &mut add);
            }
        }
    }
    found
}

fn each_declared(statement: &Statement, see: &mut impl FnMut(&Identifier)) {
    match statement {
        Statement::Declaration { name, .. } => see(name),
        Statement::If { then_branch, else_branch, .. } => {
            each_declared(then_branch, see);
            if let Some(other) = else_branch {
                each_declared(&other.branch, see);
            }
        }
        Statement::Block(block) => block.statements.iter().for_each(|s| each_declared(s, see)),
        _ => (),
    }
}
