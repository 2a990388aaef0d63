//! Random trees that are one long chain of nodes, ending around nesting 64.

use super::dice::Dice;
use super::form::*;
use crate::cat;

pub fn tree(dice: &mut Dice) -> Bytes {
    let end = dice.between(60, 67);
    let mut chain = Chain { dice, end };
    let a = || ident(0, 1);
    let declaration = match chain.dice.below(7) {
        0 => constant(a(), chain.expression(2), poisoned()),
        1 => constant(a(), cat!(15, 0), ok(chain.value_type(2))),
        2 => structure(a(), &[entry(poisoned(), ok(chain.value_type(2)))]),
        3 => head(a(), &[entry(ok(a()), ok(chain.value_type(2)))]),
        4 => cat!(3, 0, 1, a(), 0, ok(chain.value_type(2))),
        5 => {
            let value = chain.expression(2);
            function(a(), &[], ok(cat!(0, 1, value, a())))
        }
        _ => function(a(), &[], body(&[chain.statement(2)])),
    };
    super::form::tree(names(&[b"a", b"b"]), &[declaration])
}

struct Chain<'a> {
    dice: &'a mut Dice,
    /// The nesting of the last node.
    end: usize,
}

/// Each makes the node at this nesting and what it holds.
impl Chain<'_> {
    fn value_type(&mut self, nesting: usize) -> Bytes {
        if nesting >= self.end {
            return match self.dice.below(4) {
                0 => cat!(20, ident(1, 1)),
                1 => cat!(23),
                _ => cat!(self.dice.below(14) as u32),
            };
        }
        let kind = self.dice.pick(&[14, 15, 16, 17, 18, 19, 24, 25]);
        let within = self.value_type(nesting + 1);
        match kind {
            14 => cat!(14, within, 3),
            15 => cat!(15, within, ident(1, 1)),
            _ => cat!(kind, within),
        }
    }

    fn expression(&mut self, nesting: usize) -> Bytes {
        let leaf = || cat!(15, 0);
        if nesting >= self.end {
            return self.dice.pick(&[&[15, 0][..], &[2, 1, 1], &[5, 0, 1], &[16]]).to_vec();
        }
        let next = nesting + 1;
        // A type ends the chain sooner or later, so it is rare.
        let typed = self.dice.chance(2);
        match self.dice.below(11) {
            0 => cat!(0, 1, 1, 1, self.expression(next), leaf()),
            1 => cat!(0, 1, 1, 1, leaf(), self.expression(next)),
            2 => cat!(1, 1, 1, 1, self.expression(next)),
            3 => cat!(6, 1, 0, list(&[leaf(), self.expression(next)]), 1),
            4 => cat!(7, 1, 1, poisoned(), 0, self.expression(next), poisoned()),
            5 => cat!(8, 1, self.expression(next)),
            6 if typed => cat!(9, 1, 0, self.value_type(next), reference(poisoned())),
            6 => cat!(9, 0, self.reference(next)),
            7 => cat!(10, 1, 1, 0, self.expression(next)),
            8 if typed => cat!(13, 1, self.value_type(next)),
            8 => cat!(11, 1, 1, 0, self.expression(next)),
            9 => cat!(12, 1, self.reference(next)),
            _ => cat!(14, ident(0, 1), 1, 0, list(&[self.expression(next)])),
        }
    }

    fn reference(&mut self, nesting: usize) -> Bytes {
        let step = cat!(1, ident(0, 1), 0);
        if nesting >= self.end {
            return reference(ok(ident(0, 1)));
        }
        let element = |within: Bytes| cat!(0, 0, within);
        let steps = match self.dice.below(3) {
            0 => list(&[step]),
            1 => list(&[step, element(self.expression(nesting + 2))]),
            _ => list(&[element(self.expression(nesting + 2))]),
        };
        cat!(0, 1, 1, ok(ident(0, 1)), steps)
    }

    fn statement(&mut self, nesting: usize) -> Bytes {
        let next = nesting + 1;
        if nesting >= self.end {
            return loops();
        }
        match self.dice.below(30) {
            0 => cat!(0, 1, 1, self.expression(next), 0, ident(1, 1)),
            1 => cat!(0, 1, 0, 1, ok(self.value_type(next)), ident(1, 1)),
            2 => cat!(1, 1, boolean(), self.reference(next)),
            3 => cat!(2, ident(0, 1), 0, list(&[self.expression(next)])),
            4 => cat!(6, 1, 0, 1, 1, self.expression(next), boolean(), loops(), 0),
            5..=9 => if_else(self.statement(next), None),
            10..=14 => if_else(loops(), Some(self.statement(next))),
            _ => block(&[loops(), self.statement(next)]),
        }
    }
}
