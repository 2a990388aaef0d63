//! Random trees near the limits: a full name table, as many constants,
//! structures, functions, locals, labels and statements as row 8 lets pass.

use super::dice::Dice;
use super::form::*;
use super::limits::name_table;
use crate::cat;
use crate::refusal::*;

pub fn tree(dice: &mut Dice) -> Bytes {
    let mut crowd = Crowd {
        entries: ENTRIES,
        statements: STATEMENTS,
        bytes: 52_000,
        place: 0,
        // Few names collide all the time, many hardly ever.
        variables: dice.pick(&[5, 60, 700]),
        labels: dice.pick(&[3, 40, 200]),
        dice,
    };
    let mut declarations = Vec::new();
    for _ in 0..crowd.dice.between(CONTAINERS / 2, CONTAINERS) {
        declarations.push(crowd.container());
    }
    let functions = crowd.dice.pick(&[1, 3, 40]);
    for left in (1..=functions).rev() {
        declarations.push(crowd.function(left));
    }
    super::form::tree(name_table(NAMES), &declarations)
}

struct Crowd<'a> {
    dice: &'a mut Dice,
    /// What is left to spend.
    entries: usize,
    statements: usize,
    bytes: usize,
    place: u32,
    variables: usize,
    labels: usize,
}

// Variables are named from 0, labels from 700, containers from 900.
impl Crowd<'_> {
    fn named(&mut self, first: usize, many: usize) -> Bytes {
        self.place += 1;
        ident((first + self.dice.below(many)) as u32, self.place)
    }

    fn variable(&mut self) -> Bytes {
        self.named(0, self.variables)
    }

    fn label(&mut self) -> Bytes {
        self.named(700, self.labels)
    }

    fn holder(&mut self) -> Bytes {
        self.named(900, 120)
    }

    fn container(&mut self) -> Bytes {
        let name = self.holder();
        if self.dice.chance(50) {
            let value = match self.dice.below(3) {
                0 => boolean(),
                1 => deref(ok(self.holder())),
                _ => cat!(13, 1, 20, self.holder()),
            };
            return constant(name, value, ok(num(3)));
        }
        let mut members = Vec::new();
        for _ in 0..self.dice.below(3) {
            self.entries -= 1;
            let own = match self.dice.below(4) {
                0 => cat!(15, 3, self.holder()),
                1 => cat!(24, 20, self.holder()),
                2 => cat!(3),
                _ => cat!(20, self.holder()),
            };
            members.push(entry(ok(self.variable()), ok(own)));
        }
        structure(name, &members)
    }

    /// Spends its share, the last function all the rest.
    fn function(&mut self, left: usize) -> Bytes {
        let (entries, bytes) = (self.entries - self.entries / left, self.bytes - self.bytes / left);
        let statements = self.statements - self.statements / left;
        let mut body_of = Vec::new();
        while self.entries > entries && self.statements > statements && self.bytes > bytes {
            let one = self.statement(0);
            self.bytes = self.bytes.saturating_sub(one.len());
            body_of.push(one);
        }
        let name = self.named(600, 100);
        function(name, &[], body(&body_of))
    }

    fn statement(&mut self, level: usize) -> Bytes {
        if self.statements < 10 || self.entries < 10 {
            self.statements = self.statements.saturating_sub(1);
            self.entries = self.entries.min(1);
            return loops();
        }
        self.statements -= 1;
        match self.dice.weighted(&[8, 16, 5, 3, 2, if level < 8 { 3 } else { 0 }]) {
            0 => {
                self.entries -= 1;
                declare(self.variable())
            }
            1 => assign(self.variable()),
            2 => {
                self.place += 1;
                goto(self.label(), self.place)
            }
            3 => {
                self.entries -= 1;
                self.place += 1;
                label(self.label(), self.place)
            }
            4 => {
                let then = self.branch(level);
                let other = self.dice.chance(50).then(|| self.branch(level));
                if_else(then, other)
            }
            _ => {
                let many = self.dice.between(1, 6);
                let within: Vec<Bytes> = (0..many).map(|_| self.statement(level + 1)).collect();
                block(&within)
            }
        }
    }

    /// Seldom bare.
    fn branch(&mut self, level: usize) -> Bytes {
        if self.dice.chance(10) {
            return self.statement(level + 1);
        }
        self.statements = self.statements.saturating_sub(1);
        let within = self.statement(level + 1);
        block(&[within])
    }
}
