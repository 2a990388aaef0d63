//! Generated trees with all their answers, one a line.

use crate::generate::dice::Dice;
use crate::generate::{damage::damage, random, sheet};
use crate::passes::{scope, List, Record, BENCH};

/// Small trees of all styles, some of them damaged.
pub fn small(dice: &mut Dice, max: usize) -> Vec<u8> {
    // The style is chosen once: one with longer trees is tried until it fits.
    let style = dice.pick(&random::STYLES);
    for most in (3..40).rev() {
        let nodes = dice.between(3, most);
        let mut tree = random::tree(dice, style, nodes);
        if dice.chance(15) {
            tree = damage(dice, &tree);
        }
        if tree.len() <= max {
            return tree;
        }
    }
    vec![0; max.min(2)]
}

pub fn vectors(count: usize, seed: u64, max: usize) -> String {
    let mut dice = Dice::new(seed);
    let fixed = sheet::proved().into_iter().filter(|tree| tree.len() <= max);
    let mut trees: Vec<Vec<u8>> = fixed.take(count).collect();
    while trees.len() < count {
        trees.push(small(&mut dice, max));
    }
    trees.iter().map(|tree| line(tree) + "\n").collect()
}

fn line(tree: &[u8]) -> String {
    let spelled = hex(tree);
    match (scope(tree, BENCH, List::Pruning), scope(tree, BENCH, List::Walks)) {
        (Ok(pruning), Ok(walks)) => {
            let depths: Vec<String> = pruning.depths.iter().map(|d| depth_word(*d)).collect();
            format!(
                "{spelled} -> answer {} | {} | {} | {}",
                hex(&pruning.answer),
                words(&pruning.list),
                words(&walks.list),
                depths.join(" ")
            )
        }
        (Err(refusal), _) | (_, Err(refusal)) => {
            format!("{spelled} -> refused {} {}", refusal.number, refusal.place)
        }
    }
}

/// `-` where there is nothing.
pub fn hex(bytes: &[u8]) -> String {
    match bytes {
        [] => "-".to_string(),
        _ => bytes.iter().map(|byte| format!("{byte:02x}")).collect(),
    }
}

fn words(list: &[Record]) -> String {
    let words: Vec<String> = list.iter().map(|(use_, of)| format!("{use_} {of}")).collect();
    words.join(" ")
}

/// As the listing tells a depth.
pub fn depth_word(depth: u32) -> String {
    match depth {
        0 => "none".to_string(),
        1 => "poisoned".to_string(),
        more => (more - 2).to_string(),
    }
}
