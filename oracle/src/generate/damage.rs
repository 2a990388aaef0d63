//! Damaged copies: of bytes, and of whole fields.

use super::dice::Dice;
use super::form::{num, Bytes};
use crate::read::{fields, Depths};

/// Bytes that mean something to the number reader.
const TELLING: [u8; 12] = [0, 1, 2, 3, 15, 16, 23, 64, 127, 128, 129, 255];

pub fn damage(dice: &mut Dice, tree: &[u8]) -> Bytes {
    let mut tree = tree.to_vec();
    for _ in 0..dice.pick(&[1, 1, 1, 2, 4]) {
        tree = if dice.chance(50) { of_a_field(dice, tree) } else { of_a_byte(dice, tree) };
    }
    tree
}

fn of_a_byte(dice: &mut Dice, mut tree: Bytes) -> Bytes {
    let at = dice.below(tree.len() + 1);
    let byte = if dice.chance(80) { dice.pick(&TELLING) } else { dice.next() as u8 };
    match dice.below(6) {
        0 => tree.truncate(at),
        5 => tree.push(byte),
        1 => tree.insert(at, byte),
        2 if at < tree.len() => drop(tree.remove(at)),
        3 if at < tree.len() => tree[at] = tree[at].wrapping_add(dice.pick(&[1, 255])),
        _ if at < tree.len() => tree[at] = byte,
        _ => tree.push(byte),
    }
    tree
}

/// Another number where a number stands, well written or not, or the end.
fn of_a_field(dice: &mut Dice, tree: Bytes) -> Bytes {
    let (fields, _) = fields(&tree, Depths::Incoming);
    if fields.is_empty() {
        return of_a_byte(dice, tree);
    }
    let field = &fields[dice.below(fields.len())];
    let (before, behind) = (&tree[..field.offset], &tree[field.offset + field.length..]);
    let other = match dice.below(10) {
        0 => return before.to_vec(),
        1 => [&tree[..field.offset + field.length], &[0x80]].concat(),
        2 => vec![0x80, 0x00],
        3 => dice.pick(&[&[0xFF; 4][..], &[0xFF; 5], &[0xFF; 6], &[0x80; 4], &[0x80; 5]]).to_vec(),
        4 => vec![0xFF, 0xFF, 0xFF, 0xFF, dice.pick(&[0x0F, 0x10, 0x1F, 0x7F, 0x00])],
        5 => [&tree[field.offset..][..field.length], &[0x80, 0x80, 0x00]].concat(),
        6 => num(dice.pick(&[u32::MAX, 1 << 31, 65_536, 1_024, 1_025])),
        7 => num(dice.pick(&[2, 3, 6, 9, 16, 18, 26, 32, 64, 65, 255, 256])),
        _ => num(dice.below(27) as u32),
    };
    [before, &other, behind].concat()
}
