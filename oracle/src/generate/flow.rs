//! Statements around what pruning is about: a goto, a declaration that it
//! passes over, the label, a use. Strewn with more of the same, and wrapped.

use super::form::{self, Bytes};
use super::random::{Maker, Role, Style};

impl Maker<'_> {
    pub fn flow(&mut self) -> Vec<Bytes> {
        // One label and one variable that meet; what is strewn in may differ.
        let (label, variable) = (self.chosen(Role::Label), self.chosen(Role::Variable));
        let mut statements = if self.style == Style::Bare {
            self.around_a_bare_branch(label, variable)
        } else {
            let goto = self.goto(label);
            let goto = self.wrapped(goto);
            vec![goto, self.declare(variable), self.label(label), self.used(variable)]
        };
        if self.dice.chance(25) {
            let inner = statements.split_off(self.dice.below(statements.len()));
            statements.push(form::block(&inner));
        }
        for _ in 0..self.dice.pick(&[0, 1, 2, 3, 5, 8]).max(self.left() / 8) {
            let at = self.dice.below(statements.len() + 1);
            let one = self.one(0, false);
            statements.insert(at, one);
        }
        statements
    }

    /// Where pruning and walks part.
    fn around_a_bare_branch(&mut self, l: u32, x: u32) -> Vec<Bytes> {
        let (goto, label, declare) = (self.goto(l), self.label(l), self.declare(x));
        let (first, second) = (self.used(x), self.used(x));
        match self.dice.below(6) {
            0 => vec![form::if_else(declare, None), first],
            1 => vec![form::if_else(goto, Some(declare)), label, first],
            2 => vec![form::if_else(label, Some(goto)), declare, first],
            3 => vec![form::if_else(form::block(&[goto]), Some(declare)), label, first],
            4 => vec![goto, declare, form::if_else(label, Some(first)), second],
            _ => vec![form::if_else(declare, Some(self.declare(x))), first, label, goto],
        }
    }

    fn identified(&mut self, name: u32) -> Bytes {
        self.apart(|m| m.identifier_of(name))
    }

    fn goto(&mut self, label: u32) -> Bytes {
        let place = self.apart(|m| m.place());
        [vec![4], self.identified(label), place].concat()
    }

    fn label(&mut self, label: u32) -> Bytes {
        let place = self.apart(|m| m.place());
        [vec![5], self.identified(label), place].concat()
    }

    fn declare(&mut self, variable: u32) -> Bytes {
        form::declare(self.identified(variable))
    }

    fn used(&mut self, variable: u32) -> Bytes {
        form::assign(self.identified(variable))
    }

    fn wrapped(&mut self, statement: Bytes) -> Bytes {
        match self.dice.below(6) {
            0 => form::block(&[statement]),
            1 => form::if_else(form::block(&[statement]), None),
            2 => form::if_else(statement, None),
            _ => statement,
        }
    }

    fn one(&mut self, level: usize, branch: bool) -> Bytes {
        let bare = !branch || self.style == Style::Bare;
        let open = bare as usize;
        let deep = (level < 3 && self.spend()) as usize;
        let blocks = if branch { 25 } else { 9 };
        let (label, variable) = (self.chosen(Role::Label), self.chosen(Role::Variable));
        match self.dice.weighted(&[22, 20, 20 * open, 17 * open, 10 * deep, blocks * deep, 6]) {
            0 => self.goto(label),
            1 => self.used(variable),
            2 => self.declare(variable),
            3 => self.label(label),
            4 => {
                let then = self.one(level + 1, true);
                let other = self.dice.chance(50).then(|| self.one(level + 1, true));
                form::if_else(then, other)
            }
            5 => {
                let count = self.dice.between(1, 4);
                let inner: Vec<Bytes> = (0..count).map(|_| self.one(level + 1, false)).collect();
                form::block(&inner)
            }
            _ => self.apart(|m| m.statement(branch)),
        }
    }
}
