//! A fixed sample for replaying the reading: `NUMBER PLACE HEX`, one a line,
//! 0 and 0 for a tree that passes by rows 1 and 3 to 10.

use crate::generate::dice::Dice;
use crate::generate::form::Bytes;
use crate::generate::{any, limits, sheet};
use crate::read::{read, Depths};
use crate::vectors::hex;

/// Characters in all for so many lines, and for one line.
const PER_LINE: usize = 490;
const LONGEST_LINE: usize = 140_000;

pub fn cases(count: usize, seed: u64) -> String {
    let mut dice = Dice::new(seed);
    let mut out = String::new();
    let mut lines = 0;
    let mut add = |tree: &[u8], out: &mut String| {
        let line = line(tree);
        assert!(line.len() < LONGEST_LINE);
        out.push_str(&line);
        lines += 1;
        lines
    };
    let fixed = fixed();
    // Fewer than there are: spread over all of them.
    let taken = fixed.len().min(count);
    for k in 0..taken {
        add(&fixed[k * fixed.len() / taken], &mut out);
    }
    let mut largest = 12;
    for left in (1..=count - taken).rev() {
        // What is left over is for larger trees, a few of them really large.
        let room = (count * PER_LINE).saturating_sub(out.len()) / left / 2;
        let tree = if left % 40 == 0 && largest > 0 {
            largest -= 1;
            random_tree(&mut dice, 400..1_500, 300)
        } else {
            random_tree(&mut dice, 0..room.max(60), 60)
        };
        add(&tree, &mut out);
    }
    out
}

fn line(tree: &[u8]) -> String {
    let (number, place) = match read(tree, Depths::Incoming) {
        Ok(_) => (0, 0),
        Err(refusal) => (refusal.number, refusal.place),
    };
    format!("{number} {place} {}\n", hex(tree))
}

fn random_tree(dice: &mut Dice, bytes: std::ops::Range<usize>, nodes: usize) -> Bytes {
    loop {
        let nodes = dice.between(3, nodes);
        let tree = any(dice, nodes, 60);
        if bytes.contains(&tree.len()) {
            return tree;
        }
    }
}

/// One of everything that docs/FORM.md names, and both sides of every limit.
fn fixed() -> Vec<Bytes> {
    let mut all = sheet::proved();
    all.extend(sheet::NUMBER_EDGES.iter().map(|(bytes, _, _)| sheet::hex(bytes)));
    let trees = |all: Vec<limits::Named>| all.into_iter().map(|named| named.tree);
    all.extend(trees(limits::kinds()));
    all.extend(trees(limits::ranges()));
    // Each way of writing badly at a third of the fields.
    all.extend(trees(limits::badly_written()).skip(1).step_by(5));
    let (refused, passed): (Vec<_>, Vec<_>) =
        trees(limits::nameless()).partition(|tree| read(tree, Depths::Incoming).is_err());
    all.extend(refused);
    all.extend(passed.into_iter().step_by(4));
    all.extend(trees(limits::nestings()));
    let few = [
        "names-at",
        "names-past",
        "containers-at",
        "containers-past-constant",
        "containers-past-structure",
        "functions-at",
        "functions-past-function",
        "functions-past-head",
        "entries-at",
        "entries-past-parameter",
        "entries-past-member",
        "entries-past-declaration",
        "entries-past-label",
        "statements-at",
        "statements-past",
        "statements-past-block",
        "statements-past-else",
        "bytes-past",
    ];
    let counts = limits::counts().into_iter().chain(limits::longest());
    all.extend(counts.filter(|named| few.contains(&&named.name[..])).map(|named| named.tree));
    all
}
