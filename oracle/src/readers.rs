//! The three readers over an answered tree: the original's answers, with the
//! name as a part of the bytes.

use crate::generate::dice::Dice;
use crate::generate::{any, damage::damage};
use crate::passes::{scope, List, BENCH};
use crate::read::{read, Depths};
use crate::refusal::*;
use crate::text;
use crate::vectors::hex;
use penne::alpha::scoper::{get_container_depth, get_structure_name, is_container};

#[derive(Debug, PartialEq, Eq)]
pub struct Row {
    pub depth: u32,
    pub is_container: bool,
    /// Offset and length of a structure's name, nothing for another kind.
    pub name: Option<(usize, usize)>,
}

pub fn ask(bytes: &[u8], declaration: u32, max: u32) -> Result<Row, Refusal> {
    let tree = read(bytes, Depths::Answered)?;
    let Some(asked) = tree.declarations.get(declaration as usize) else {
        return refuse(13, 0);
    };
    Ok(Row {
        depth: get_container_depth(asked, max),
        is_container: is_container(asked),
        name: get_structure_name(asked).map(|name| part(bytes, &text::to_bytes(name))),
    })
}

/// Where in the name table a name stands. Names are all different.
fn part(bytes: &[u8], name: &[u8]) -> (usize, usize) {
    let (fields, _) = crate::read::fields(bytes, Depths::Answered);
    let found = fields
        .iter()
        .filter(|field| field.word == "Bytes")
        .find(|field| &bytes[field.offset..][..field.length] == name);
    let found = found.expect("the name table stands first and holds every name");
    (found.offset, found.length)
}

pub fn told(asked: Result<Row, Refusal>) -> String {
    match asked {
        Err(refusal) => refusal.to_string(),
        Ok(Row { depth, is_container, name }) => {
            let name = match name {
                None => "none".to_string(),
                Some((start, length)) => format!("{start} {length}"),
            };
            format!("depth {depth} container {} name {name}", is_container as u32)
        }
    }
}

/// Questions to the readers with their answers, one a line, between tabs: the
/// tree, the declaration's number, the maximum, the answer.
pub fn cases(count: usize, seed: u64) -> String {
    let mut dice = Dice::new(seed);
    let mut out = String::new();
    for _ in 0..count {
        let nodes = dice.between(3, 40);
        let tree = any(&mut dice, nodes, 0);
        // Mostly an answer; now and then damaged, or a tree that is none.
        let mut tree = match scope(&tree, BENCH, List::Pruning) {
            Ok(scoped) if dice.chance(95) => scoped.answer,
            _ => tree,
        };
        if dice.chance(15) {
            tree = damage(&mut dice, &tree);
        }
        let declarations = read(&tree, Depths::Answered).map_or(1, |tree| tree.declarations.len());
        let declaration = match dice.below(20) {
            0 => u32::MAX,
            1 => declarations as u32,
            _ => dice.below(declarations.max(1)) as u32,
        };
        let max = dice.pick(&[0, 1, 2, 100, u32::MAX]);
        let told = told(ask(&tree, declaration, max));
        out += &format!("{}\t{declaration}\t{max}\t{told}\n", hex(&tree));
    }
    out
}
