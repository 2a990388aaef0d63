//! The scoping call: read, the original's passes, write, with all refusals.

use crate::read::{read, Depths, Tree};
use crate::refusal::*;
use crate::{skips, walks, write};
use penne::alpha::common::Declaration;
use penne::alpha::scoper;

/// What the caller lends: bytes of answer, words of list, words of work memory.
#[derive(Clone, Copy)]
pub struct Room {
    pub answer: usize,
    pub list: usize,
    pub work: usize,
}

/// The bench sheet's.
pub const BENCH: Room = Room { answer: 65_535, list: 16_384, work: WORK_WORDS };

/// Offset of a use's identifier, offset of the identifier it resolves to.
pub type Record = (usize, usize);

#[derive(Clone, Copy, PartialEq, Eq)]
pub enum List {
    Pruning,
    Walks,
}

pub struct Scoped {
    pub answer: Vec<u8>,
    pub list: Vec<Record>,
    /// 0 none, 1 poisoned, 2 + d, one for each declaration.
    pub depths: Vec<u32>,
}

pub fn scope(tree: &[u8], room: Room, list: List) -> Result<Scoped, Refusal> {
    // Row 2 comes before the reading, which may take long.
    if tree.len() <= TREE_BYTES && room.work < WORK_WORDS {
        return refuse(2, 0);
    }
    let scoped = whole(tree, list)?;
    match within(Ok(&scoped), room) {
        Ok(_) => Ok(scoped),
        Err(refusal) => Err(refusal),
    }
}

/// With all the room in the world: rows 1 and 3 to 10.
pub fn whole(tree: &[u8], list: List) -> Result<Scoped, Refusal> {
    if tree.len() > TREE_BYTES {
        return refuse(1, 0);
    }
    let tree = read(tree, Depths::Incoming)?;
    let declarations = analyze(&tree);
    let answer = write::write(&tree.names, &declarations);
    let list = match list {
        List::Pruning => skips::by_pruning(&tree),
        List::Walks => walks::by_walks(&tree),
    };
    let depths = declarations.iter().map(write::depth_number).collect();
    Ok(Scoped { answer, list, depths })
}

/// What becomes of it in this room: rows 2, 11 and 12 where they come in.
pub fn within(whole: Result<&Scoped, Refusal>, room: Room) -> Result<&Scoped, Refusal> {
    match whole {
        Err(Refusal { number: 1, .. }) => whole,
        _ if room.work < WORK_WORDS => refuse(2, 0),
        Ok(scoped) if scoped.answer.len() > room.answer => refuse(11, 0),
        Ok(scoped) if 2 * scoped.list.len() > room.list => refuse(12, 0),
        _ => whole,
    }
}

/// Both passes of the original, on a tree as it came in.
pub fn analyze(tree: &Tree) -> Vec<Declaration> {
    scoper::analyze(tree.declarations.clone())
}
