//! Another program against the oracle: a process for every tree, the tree on
//! its standard input, what it prints against what the oracle would print.

use crate::generate::dice::Dice;
use crate::generate::form::Bytes;
use crate::generate::{any, damage::damage, limits, sheet};
use crate::shrink::shrink;
use crate::vectors::hex;
use std::io::{Read, Write};
use std::process::{Command, Stdio};

pub struct Comparison<'a> {
    /// A program, or one with its first arguments.
    pub program: &'a str,
    /// What the oracle prints for a tree.
    pub wanted: &'a dyn Fn(&[u8]) -> String,
}

/// A pipe holds this much without a reader, on all systems we know of.
const PIPE: usize = 4_096;
/// Runs spent on making the first difference small.
const SHRINKING: usize = 4_000;

impl Comparison<'_> {
    /// Runs all trees; says the first difference as soon as it is found, made
    /// small, and at the end the last line. True when there was none.
    pub fn run(&self, count: usize, seed: u64) -> bool {
        let mut dice = Dice::new(seed);
        let mut by_number = std::collections::BTreeMap::<u32, usize>::new();
        let mut differences = 0;
        let fixed: Vec<Bytes> = fixed().into_iter().take(count).collect();
        let short = ((count - fixed.len()) / 3).min(1 + 256 + 65_536);
        for k in 0..count {
            let tree = if k < fixed.len() {
                fixed[k].clone()
            } else if k < fixed.len() + short {
                short_string(k - fixed.len())
            } else {
                any_tree(&mut dice, &fixed)
            };
            let wanted = (self.wanted)(&tree);
            *by_number.entry(number_of(&wanted)).or_default() += 1;
            let got = self.told(&tree);
            if got.trim_end() != wanted.trim_end() {
                differences += 1;
                if differences == 1 {
                    self.say(&shrink(tree, SHRINKING, &mut |less| self.differs(less)));
                }
            }
        }
        let numbers = by_number.iter().map(|(number, trees)| match number {
            0 => format!("passed {trees}"),
            _ => format!("{number}: {trees}"),
        });
        let numbers: Vec<String> = numbers.collect();
        println!("compared {count} trees, {differences} differences ({})", numbers.join(", "));
        differences == 0
    }

    fn say(&self, tree: &[u8]) {
        println!("difference at {}", hex(tree));
        println!("  oracle  {}", (self.wanted)(tree).trim_end().replace('\n', "; "));
        println!("  program {}", self.told(tree).trim_end().replace('\n', "; "));
    }

    /// What the program prints, or how it ended.
    fn told(&self, tree: &[u8]) -> String {
        let mut words = self.program.split(' ');
        let mut child = Command::new(words.next().unwrap())
            .args(words)
            .stdin(Stdio::piped())
            .stdout(Stdio::piped())
            .stderr(Stdio::null())
            .spawn()
            .unwrap_or_else(|error| panic!("{}: {error}", self.program));
        let mut to = child.stdin.take().unwrap();
        let mut from = child.stdout.take().unwrap();
        let mut said = String::new();
        // A program may end without reading all, so a broken pipe is no error.
        if tree.len() <= PIPE {
            let _ = to.write_all(tree);
            drop(to);
            let _ = from.read_to_string(&mut said);
        } else {
            // It may also print before it has read all: read beside writing.
            std::thread::scope(|scope| {
                scope.spawn(move || drop(to.write_all(tree)));
                let _ = from.read_to_string(&mut said);
            });
        }
        let status = child.wait().unwrap();
        if status.success() {
            said
        } else {
            format!("{said}ended by {status}")
        }
    }

    fn differs(&self, tree: &[u8]) -> bool {
        self.told(tree).trim_end() != (self.wanted)(tree).trim_end()
    }
}

fn number_of(told: &str) -> u32 {
    let number = told.strip_prefix("refused ").and_then(|rest| rest.split(' ').next());
    number.map_or(0, |number| number.parse().unwrap())
}

fn fixed() -> Vec<Bytes> {
    let edges = sheet::NUMBER_EDGES.iter().map(|(bytes, _, _)| sheet::hex(bytes));
    let limits = limits::all().into_iter().map(|named| named.tree);
    sheet::proved().into_iter().chain(edges).chain(limits).collect()
}

/// All byte strings of up to two bytes, in order.
fn short_string(number: usize) -> Bytes {
    match number {
        0 => vec![],
        1..=256 => vec![(number - 1) as u8],
        _ => ((number - 257) as u16).to_be_bytes().to_vec(),
    }
}

/// Random, damaged, or a damaged copy of a fixed one that is not large.
fn any_tree(dice: &mut Dice, fixed: &[Bytes]) -> Bytes {
    if dice.chance(10) {
        let tree = &fixed[dice.below(fixed.len())];
        if tree.len() < 1_000 {
            return damage(dice, tree);
        }
    }
    let nodes = dice.pick(&[3, 5, 10, 20, 40, 100]);
    any(dice, nodes, 60)
}
