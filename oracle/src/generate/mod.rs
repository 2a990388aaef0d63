//! Trees to try things on.

use dice::Dice;
use form::Bytes;

pub mod crowded;
pub mod damage;
pub mod deep;
pub mod dice;
mod flow;
pub mod form;
pub mod heavy;
pub mod limits;
pub mod random;
pub mod sheet;

/// A tree of any kind, whole.
pub fn whole(dice: &mut Dice, nodes: usize) -> Bytes {
    if dice.chance(5) {
        return deep::tree(dice);
    }
    let style = dice.pick(&random::STYLES);
    random::tree(dice, style, nodes)
}

/// A tree of any kind, or a damaged one: of these the given percent.
pub fn any(dice: &mut Dice, nodes: usize, damaged: usize) -> Bytes {
    let tree = whole(dice, nodes);
    if dice.chance(damaged) {
        damage::damage(dice, &tree)
    } else {
        tree
    }
}
