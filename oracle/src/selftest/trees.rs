//! Random trees: the original, the models and the laws of docs/FORM.md against each other.

use crate::bodies::{bodies, Act};
use crate::edges::Outcome;
use crate::generate::dice::Dice;
use crate::generate::form::Bytes;
use crate::generate::{any, crowded, limits};
use crate::keeping::keep_in_constants;
use crate::passes::{self, scope, List, Record, BENCH};
use crate::read::{fields, read, read_without_row_9, Depths, Tree};
use crate::refusal::Refusal;
use crate::vectors::hex;
use crate::write::{depth_number, write, write_counting, POISON_KINDS};
use crate::{edges, pruning, skips, standing, walks};
use penne::alpha::common::*;
use penne::alpha::error::Error;
use penne::alpha::scoper;
use std::panic::{catch_unwind, AssertUnwindSafe};

#[derive(Default)]
struct Count {
    trees: usize,
    passed: usize,
    refused: [usize; 14],
    uses: usize,
    records: usize,
    differ: usize,
    premise: usize,
    edges: usize,
    refused_edges: usize,
    poisoned_depths: usize,
    deepest: u32,
    made: [usize; POISON_KINDS],
    row_9_answered: usize,
    row_9_panics: usize,
    longest: usize,
    most_records: usize,
}

/// A tree for the checks below: any style, some large, some damaged.
fn any_tree(dice: &mut Dice) -> Bytes {
    let nodes = match dice.below(1_000) {
        0 => 5_000,
        1..=20 => 1_000,
        _ => dice.pick(&[10, 20, 40, 80, 300]),
    };
    any(dice, nodes, 10)
}

pub fn check(trees: usize, seed: u64) -> String {
    let mut dice = Dice::new(seed);
    let mut count = Count::default();
    let mut limits = limits::all();
    let crowded = trees / 500;
    for k in 0..trees + crowded {
        let tree = match limits.pop() {
            Some(named) => named.tree,
            None if k < trees => any_tree(&mut dice),
            None => crowded::tree(&mut dice),
        };
        let checked = catch_unwind(AssertUnwindSafe(|| one_tree(&tree, &mut dice, &mut count)));
        if let Err(panic) = checked {
            eprintln!("in the tree {}", hex(&tree));
            std::panic::resume_unwind(panic);
        }
    }
    for kind in 0..17 {
        assert!(trees < 10_000 || count.made[kind] > 0, "no pass made poison kind {kind}");
    }
    format!(
        "{} trees, the longest that passed of {} bytes: {} passed, refused by number {:?}\n\
         {} uses and {} records ({} in one tree): the original's and the model's the same\n\
         {} bodies within the premise: pruning's list is the list by walks; {} trees where the two differ\n\
         {} edges: depths follow from them, deepest {}, {} poisoned; {} edges refused, as the model says\n\
         trees in which the passes made each poison kind {:?}\n\
         kind 23 where row 9 refuses: the original answered {}, panicked at {}\n",
        count.trees,
        count.longest,
        count.passed,
        count.refused,
        count.uses,
        count.records,
        count.most_records,
        count.premise,
        count.differ,
        count.edges,
        count.deepest,
        count.poisoned_depths,
        count.refused_edges,
        &count.made[..17],
        count.row_9_answered,
        count.row_9_panics,
    )
}

fn one_tree(bytes: &[u8], dice: &mut Dice, count: &mut Count) {
    count.trees += 1;
    other_places(bytes, dice);
    let tree = read(bytes, Depths::Incoming);
    places(bytes, tree.as_ref().err().copied(), dice);
    let tree = match tree {
        Ok(tree) => tree,
        Err(refusal) => {
            count.refused[refusal.number as usize] += 1;
            if refusal.number == 9 {
                beyond_row_9(bytes, count);
            }
            return;
        }
    };
    count.passed += 1;
    count.longest = count.longest.max(bytes.len());
    assert_eq!(write(&tree.names, &tree.declarations), bytes, "round trip");

    let answer = passes::analyze(&tree);
    let (written, after) = write_counting(&tree.names, &answer);
    let (_, before) = write_counting(&tree.names, &tree.declarations);
    for kind in 0..POISON_KINDS {
        count.made[kind] += (after[kind] > before[kind]) as usize;
    }
    if written.len() <= 65_535 {
        let again = read(&written, Depths::Answered).expect("an answer can be read");
        assert_eq!(write(&again.names, &again.declarations), written, "round trip of the answer");
    }
    small_ids(bytes);
    uses(&tree, &answer, count);
    containers(&tree, &answer, count);
    refused_edges(&tree, count);
}

/// Where only row 9 refuses: does the original answer, or is it the panic that
/// the row stands for?
fn beyond_row_9(bytes: &[u8], count: &mut Count) {
    if let Ok(tree) = read_without_row_9(bytes) {
        let hook = std::panic::take_hook();
        std::panic::set_hook(Box::new(|_| ()));
        let outcome = catch_unwind(|| passes::analyze(&tree));
        std::panic::set_hook(hook);
        match outcome {
            Ok(_) => count.row_9_answered += 1,
            Err(_) => count.row_9_panics += 1,
        }
    }
}

/// No id given out exceeds the input's length. Ids that come in may, so they
/// are made 0 first, which makes the input shorter rather than longer.
fn small_ids(bytes: &[u8]) {
    let mut plain = Vec::new();
    for field in fields(bytes, Depths::Incoming).0 {
        match field.word {
            "Id" => plain.push(0),
            _ => plain.extend(&bytes[field.offset..][..field.length]),
        }
    }
    if let Ok(scoped) = scope(&plain, BENCH, List::Pruning) {
        let (all, _) = fields(&scoped.answer, Depths::Answered);
        let ids = all.iter().filter(|field| field.word == "Id");
        let greatest = ids.map(|field| field.value.parse::<usize>().unwrap()).max();
        assert!(greatest.unwrap_or(0) <= plain.len(), "ids within the length");
    }
}

/// The uses and the skip list: the original's, as observed, against the model.
fn uses(tree: &Tree, answer: &[Declaration], count: &mut Count) {
    let observed = skips::observe(tree);
    let bodies = bodies(tree);
    let mut at = 0;
    let mut differ = false;
    for body in &bodies {
        let told = body.acts.iter().filter_map(|act| match act {
            Act::Use { offset, of } => Some((*offset, of.local())),
            _ => None,
        });
        let told: Vec<_> = told.collect();
        let seen = &observed[at..][..told.len()];
        at += told.len();
        let resolved: Vec<_> = seen.iter().map(|use_| (use_.offset, use_.local)).collect();
        assert_eq!(resolved, told, "what uses resolve to");

        let refused: Vec<Record> = seen.iter().filter_map(skips::Use::record).collect();
        assert_eq!(refused, pruning::pruned(body), "what pruning refuses");
        let walked = walks::skippable(body);
        if body.premise {
            count.premise += 1;
            assert_eq!(refused, walked, "walks and pruning within the premise");
        }
        differ |= refused != walked;
    }
    assert_eq!(at, observed.len(), "examined uses");
    assert!(observed.windows(2).all(|pair| pair[0].offset < pair[1].offset), "tree order");
    count.uses += at;
    let records = observed.iter().filter(|use_| use_.refused).count();
    count.most_records = count.most_records.max(records);
    count.records += records;
    count.differ += differ as usize;
    still_standing(answer, &observed);
}

/// What still stands in the answer is as observed on the changed trees: a kind
/// 13 names a use on the list, and a use that keeps its identifier is not on it.
fn still_standing(answer: &[Declaration], observed: &[skips::Use]) {
    let find = |offset: usize| {
        observed.binary_search_by_key(&offset, |use_| use_.offset).ok().map(|at| &observed[at])
    };
    standing::each_standing(answer, &mut |base| match base {
        Ok(identifier) => {
            let use_ = find(identifier.location.offset()).expect("a standing use is examined");
            assert!(!use_.refused);
        }
        Err(Poison::Error(Error::VariableDeclarationMayBeSkipped {
            location,
            location_of_declaration,
            ..
        })) => {
            // One that came in has the offset of a place, which is no use's.
            if let Some(use_) = find(location.offset()) {
                let record = (location.offset(), location_of_declaration.offset());
                assert!(use_.refused);
                assert_eq!(use_.record(), Some(record));
            }
        }
        Err(_) => (),
    });
}

/// Depths follow from the model's edges.
fn containers(tree: &Tree, answer: &[Declaration], count: &mut Count) {
    let edges = edges::edges(tree);
    let depth_of = edges::depths(&edges);
    for (number, declaration) in answer.iter().enumerate() {
        let depth = match declaration {
            Declaration::Constant { .. } | Declaration::Structure { .. } => {
                match depth_of(number) {
                    None => 1,
                    Some(depth) => depth as u32 + 2,
                }
            }
            _ => 0,
        };
        assert_eq!(depth_number(declaration), depth, "depth of declaration {number}");
        count.poisoned_depths += (depth == 1) as usize;
        count.deepest = count.deepest.max(depth.saturating_sub(2));
    }
    count.edges += edges.len();
}

/// Every edge that the model sees refused is one poison in the answer, of the
/// kind it says; told on trees without poisons of their own, so that none is
/// dropped and none is mistaken.
fn refused_edges(tree: &Tree, count: &mut Count) {
    let (_, incoming) = write_counting(&tree.names, &tree.declarations);
    if incoming.iter().any(|poisons| *poisons > 0) {
        return;
    }
    let answer = scoper::analyze(keep_in_constants(&tree.declarations));
    let is_constant = |number: usize| matches!(answer[number], Declaration::Constant { .. });
    let (mut of_constants, mut of_structures, mut late) = (0, 0, 0);
    for ((from, _), outcome) in edges::outcomes(tree) {
        match outcome {
            Outcome::Held => (),
            Outcome::Ring if is_constant(from) => of_constants += 1,
            Outcome::Ring => of_structures += 1,
            Outcome::Late => late += 1,
        }
    }
    let containers: Vec<Declaration> = answer
        .iter()
        .filter(|it| matches!(it, Declaration::Constant { .. } | Declaration::Structure { .. }))
        .cloned()
        .collect();
    let (_, made) = write_counting(&tree.names, &containers);
    assert_eq!(made[14], of_constants, "rings of constants");
    assert_eq!(made[15] + made[16], of_structures, "rings of structures");
    assert_eq!(made[0], late, "edges on what holds itself");
    count.refused_edges += of_constants + of_structures + late;
}

/// A refusal's place is where a field begins: cut there, the tree lacks it. And
/// a tree that passes lacks whichever field it is cut at.
fn places(bytes: &[u8], refusal: Option<Refusal>, dice: &mut Dice) {
    let cut = |place: usize| read(&bytes[..place], Depths::Incoming).err();
    let lacks = |place| Some(Refusal { number: 3, place });
    match refusal {
        Some(Refusal { number: 1, .. }) => (),
        Some(Refusal { number: 10, place }) => assert_eq!(cut(place), None),
        Some(Refusal { place, .. }) => assert_eq!(cut(place), lacks(place)),
        None => {
            let (all, _) = fields(bytes, Depths::Incoming);
            let field = &all[dice.below(all.len())];
            // An empty string is there also where the bytes end.
            if field.length > 0 {
                assert_eq!(cut(field.offset), lacks(field.offset));
            }
        }
    }
}

/// Other places of the same width: the same lengths, depths and list.
fn other_places(bytes: &[u8], dice: &mut Dice) {
    let mut other = bytes.to_vec();
    let (all, _) = fields(bytes, Depths::Incoming);
    for field in all.iter().filter(|field| field.word == "Place") {
        // Low bits only, and never to a padded form.
        other[field.offset] ^= dice.next() as u8 & 0x3F;
    }
    let (one, two) = (scope(bytes, BENCH, List::Pruning), scope(&other, BENCH, List::Pruning));
    match (one, two) {
        (Ok(one), Ok(two)) => {
            assert_eq!(one.list, two.list, "list by other places");
            assert_eq!(one.depths, two.depths, "depths by other places");
            let ids = |bytes: &[u8]| -> Vec<(usize, &str, String)> {
                let (all, _) = fields(bytes, Depths::Answered);
                let but_places = all.into_iter().filter(|field| field.word != "Place");
                but_places.map(|field| (field.offset, field.word, field.value)).collect()
            };
            assert_eq!(ids(&one.answer), ids(&two.answer), "all but places by other places");
        }
        (one, two) => assert_eq!(one.err(), two.err(), "refusal by other places"),
    }
}
