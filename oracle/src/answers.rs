//! A fixed sample for replaying whole answers: cases one after the other, as
//! bytes that a program can read piece by piece into memory it has.
//!
//! A case is eight numbers of four bytes each, low byte first: the tree's
//! length; bytes of answer, words of list and words of work memory lent;
//! refusal and place, or 0 and 0; the answer's length and the number of
//! records. Behind them stand the tree, the answer and the list, two words of
//! four bytes a record. A tree that row 1 refuses is left out, since any bytes
//! of its length will do.

use crate::generate::dice::Dice;
use crate::generate::form::Bytes;
use crate::generate::{any, heavy, limits, sheet};
use crate::lending::{every, Lending};
use crate::passes::{whole, within, List, Room};
use crate::refusal::{TREE_BYTES, WORK_WORDS};

/// What the program that replays them has to lend.
pub const MOST: Room = Room { answer: 65_536, list: 16_384, work: WORK_WORDS + 16 };

/// Bytes in all for so many cases.
const PER_CASE: usize = 320;

pub fn answer_cases(count: usize, seed: u64) -> Vec<u8> {
    let mut dice = Dice::new(seed);
    let mut out = Vec::new();
    let mut cases = Vec::new();
    for tree in sheet::proved() {
        cases.extend(every(&mut dice).into_iter().map(|lending| (tree.clone(), lending)));
    }
    cases.extend(fixed().into_iter().map(|tree| (tree, Lending::sheet(0))));
    // Fewer than there are: spread over all of them.
    let taken = cases.len().min(count);
    for k in 0..taken {
        let (tree, lending) = &cases[k * cases.len() / taken];
        add(&mut out, tree, *lending);
    }
    for left in (1..=count - taken).rev() {
        let room = (count * PER_CASE).saturating_sub(out.len()) / left / 2;
        let tree = random_tree(&mut dice, room.max(80));
        let any = Lending::any(&mut dice);
        add(&mut out, &tree, if dice.chance(50) { Lending::sheet(0) } else { any });
    }
    out
}

fn add(out: &mut Vec<u8>, tree: &[u8], lending: Lending) {
    let whole = whole(tree, List::Pruning);
    let mut room = lending.room(&whole);
    room.answer = room.answer.min(MOST.answer);
    room.list = room.list.min(MOST.list);
    room.work = room.work.min(MOST.work);
    let (refusal, answer, list) = match within(whole.as_ref().map_err(|refusal| *refusal), room) {
        Ok(scoped) => ((0, 0), &scoped.answer[..], &scoped.list[..]),
        Err(refusal) => ((refusal.number, refusal.place), &[][..], &[][..]),
    };
    let header = [
        tree.len(),
        room.answer,
        room.list,
        room.work,
        refusal.0 as usize,
        refusal.1,
        answer.len(),
        list.len(),
    ];
    let mut words = |words: &[usize]| {
        words.iter().for_each(|word| out.extend((*word as u32).to_le_bytes()));
    };
    words(&header);
    if tree.len() <= TREE_BYTES {
        out.extend(tree);
    }
    out.extend(answer);
    for (at, of) in list {
        out.extend((*at as u32).to_le_bytes());
        out.extend((*of as u32).to_le_bytes());
    }
}

/// Of any style and size, so long as the tree takes no more than its share.
fn random_tree(dice: &mut Dice, bytes: usize) -> Bytes {
    loop {
        let nodes = dice.pick(&[5, 10, 20, 40, 80]);
        let tree = any(dice, nodes, 12);
        if tree.len() < bytes {
            return tree;
        }
    }
}

/// One of everything that docs/FORM.md names, and trees near each limit of row 8.
fn fixed() -> Vec<Bytes> {
    let mut all: Vec<Bytes> =
        sheet::NUMBER_EDGES.iter().map(|(bytes, _, _)| sheet::hex(bytes)).collect();
    let trees = |all: Vec<limits::Named>| all.into_iter().map(|named| named.tree);
    all.extend(trees(limits::kinds()));
    all.extend(trees(limits::ranges()));
    all.extend(trees(limits::badly_written()).skip(1).step_by(9));
    all.extend(trees(limits::nameless()).step_by(4));
    all.extend(trees(limits::nestings()).step_by(2));
    let near = [
        "names-at",
        "names-past",
        "names-last-used",
        "containers-at",
        "containers-past-constant",
        "functions-at",
        "functions-past-head",
        "entries-at",
        "entries-past-label",
        "entries-all-parameters",
        "entries-all-members",
        "entries-all-declarations",
        "entries-all-labels",
        "statements-at-else",
        "statements-past-else",
        "bytes-past",
        "structures-chain",
        "structures-chain-back",
        "gotos",
    ];
    let counts = limits::counts().into_iter().chain(limits::longest());
    let counts = counts.map(|named| (named.name, named.tree));
    let heavy = heavy::all().into_iter().map(|(name, tree)| (name.to_string(), tree));
    let named = counts.chain(heavy);
    all.extend(named.filter(|(name, _)| near.contains(&&name[..])).map(|(_, tree)| tree));
    all
}
