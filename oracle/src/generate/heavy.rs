//! Trees near the limits on which something takes long: what `perf` measures.

use super::form::*;
use super::limits::name_table;
use crate::cat;
use crate::refusal::*;

/// Bytes to fill up to, and where ids make the answer longer than the tree: it
/// is to fit the bench sheet's room.
const FULL: usize = 65_000;
const FULL_WITH_IDS: usize = 57_000;

pub fn all() -> Vec<(&'static str, Bytes)> {
    vec![
        ("locals-first", locals(0)),
        ("locals-last", locals(LOCALS - 1)),
        ("gotos", gotos()),
        ("structures-chain", structures_chain()),
        ("structures-chain-back", structures_chain_back()),
        ("structures-dense", structures_dense()),
        ("constants-dense", constants_dense()),
        ("names-short", names_short()),
        ("names-alike", names_alike()),
        ("nesting-blocks", nested_blocks()),
        ("nesting-parentheses", nested_parentheses()),
        ("plain", plain()),
    ]
}

/// A function behind so many names, its own the last. No tree has more names
/// than it uses: what names cost is measured apart.
fn one_function(names: u32, statements: &[Bytes]) -> Bytes {
    let function = function(ident(names, 1), &[], body(statements));
    tree(name_table(names as usize + 1), &[function])
}

/// An array of uses, as a value.
fn uses(of: &[u32]) -> Bytes {
    let uses: Vec<Bytes> = of.iter().map(|name| deref(ok(ident(*name, 1)))).collect();
    cat!(6, 1, 0, list(&uses), 0)
}

fn assign_value(value: Bytes, to: u32) -> Bytes {
    cat!(1, 1, value, reference(ok(ident(to, 1))))
}

const LOCALS: u32 = 900;

/// So many locals, and then only uses of one of them, ten a statement.
fn locals(used: u32) -> Bytes {
    let mut statements: Vec<Bytes> = (0..LOCALS).map(|name| declare(ident(name, 1))).collect();
    let one = assign_value(uses(&[used; 9]), used);
    let left = FULL_WITH_IDS - one_function(LOCALS, &statements).len();
    statements.extend(vec![one.clone(); left / one.len()]);
    one_function(LOCALS, &statements)
}

/// 512 locals, 1,000 gotos from everywhere between them, then 500 labels with a
/// use after every twentieth.
fn gotos() -> Bytes {
    let (locals, labels) = (512, 500);
    let of = |k: u32| ident(locals + k % labels, 1);
    let mut statements = Vec::new();
    for k in 0..locals {
        statements.push(declare(ident(k, 1)));
        statements.push(goto(of(2 * k), 1));
        if k < 1_000 - locals {
            statements.push(goto(of(2 * k + 1), 1));
        }
    }
    for k in 0..labels {
        statements.push(label(of(k), 1));
        if k % 20 == 0 {
            statements.push(assign(ident(k, 1)));
        }
    }
    one_function(locals + labels, &statements)
}

const STRUCTURES: u32 = CONTAINERS as u32;

fn structure_with(name: u32, members: &[u32]) -> Bytes {
    let member = |(k, of): (usize, &u32)| {
        entry(ok(ident(STRUCTURES + k as u32, 1)), ok(cat!(20, ident(*of, 1))))
    };
    structure(ident(name, 1), &members.iter().enumerate().map(member).collect::<Vec<_>>())
}

fn structures(members: impl Fn(u32) -> Vec<u32>) -> Bytes {
    let all: Vec<Bytes> = (0..STRUCTURES).map(|k| structure_with(k, &members(k))).collect();
    tree(name_table(CONTAINERS + ENTRIES / CONTAINERS), &all)
}

/// Each holds the next.
fn structures_chain() -> Bytes {
    structures(|k| (k + 1..STRUCTURES).take(1).collect())
}

/// Each holds the one before.
fn structures_chain_back() -> Bytes {
    structures(|k| (0..k).rev().take(1).collect())
}

/// Each holds the next eight: all the members that row 8 lets pass.
fn structures_dense() -> Bytes {
    structures(|k| (k + 1..STRUCTURES).take(ENTRIES / CONTAINERS).collect())
}

/// Each constant is an array of the ones behind it.
fn constants_dense() -> Bytes {
    let constants = CONTAINERS as u32;
    let all: Vec<Bytes> = (0..constants)
        .map(|k| {
            let held: Vec<u32> = (k + 1..constants).take(41).collect();
            constant(ident(k, 1), uses(&held), ok(num(3)))
        })
        .collect();
    tree(name_table(constants as usize), &all)
}

/// As many names as may be, of one and two bytes.
fn names_short() -> Bytes {
    one_function(NAMES as u32 - 1, &[loops()])
}

/// As many names as may be, as long as they can all be, alike up to their ends.
fn names_alike() -> Bytes {
    let length = FULL / NAMES - 1;
    let named = |k: usize| {
        let end = (k as u16).to_be_bytes();
        sized(&[&vec![b'n'; length - end.len()], &end[..]].concat())
    };
    let all: Vec<Bytes> = (0..NAMES).map(named).collect();
    tree(list(&all), &[function(ident(0, 1), &[], body(&[loops()]))])
}

/// Blocks in blocks to the last level, each with 16 locals and a use of each.
fn nested_blocks() -> Bytes {
    let deepest = NESTING - 1;
    let names = (deepest as u32 - 1) * 16;
    let mut inner = Vec::new();
    for level in (2..=deepest).rev() {
        let own = (0..16).map(|k| (level as u32 - 2) * 16 + k);
        let mut statements: Vec<Bytes> = own.clone().map(|k| declare(ident(k, 1))).collect();
        statements.append(&mut inner);
        statements.extend(own.map(|k| assign(ident(k, 1))));
        inner = if level == 2 { statements } else { vec![block(&statements)] };
    }
    one_function(names, &inner)
}

/// Expressions of as many levels as may be, all through one function.
fn nested_parentheses() -> Bytes {
    let mut statements = vec![declare(ident(0, 1))];
    // Function 1, statement 2, the use's reference 64.
    let deep = parens(NESTING - 4, deref(ok(ident(0, 1))));
    let one = assign_value(deep, 0);
    let left = FULL - one_function(1, &statements).len();
    statements.extend(vec![one.clone(); left / one.len()]);
    one_function(1, &statements)
}

/// A script as people write them: constants, structures, functions with
/// parameters, a few locals, loops by label and goto, calls, arithmetic.
fn plain() -> Bytes {
    // Names: functions from 0, containers from 200, locals from 300, labels from 320.
    let names: Vec<Bytes> = (0..330).map(|k| sized(format!("name_{k}").as_bytes())).collect();
    let mut declarations = Vec::new();
    for k in 0..10u32 {
        let integer = cat!(3, [k as u8; 16].to_vec(), 7, 0);
        declarations.push(constant(ident(200 + k, k), integer, ok(num(3))));
        let member = |m: u32| entry(ok(ident(300 + m, m)), ok(num(3)));
        declarations.push(structure(ident(210 + k, k), &[member(0), member(1), member(2)]));
    }
    let with = |functions: u32| {
        let mut all = declarations.clone();
        all.extend((0..functions).map(plain_function));
        tree(list(&names), &all)
    };
    // As many as fit into 64 KB with the ids that the answer has.
    let fits = |functions: &u32| with(*functions).len() + 2_300 <= TREE_BYTES;
    with((1..200).take_while(fits).last().unwrap())
}

fn plain_function(k: u32) -> Bytes {
    let local = |n: u32| deref(ok(ident(300 + n, 40 + n)));
    let sum = |left: Bytes, right: Bytes| cat!(0, 1, 50, 51, left, right);
    let parameter = |n: u32| entry(ok(ident(300 + n, 10 + n)), ok(num(3)));
    let declare_as = |n: u32, value: Bytes| cat!(0, 60, 1, value, 1, 0, 3, ident(300 + n, 61));
    let call = cat!(14, ident(k / 2, 70), 0, 0, list(&[local(0), local(1)]));
    let text = cat!(5, sized(&[b't'; 200]), 71);
    let print = cat!(2, ident(329, 72), 3, list(&[text, sum(local(0), local(1)), local(2)]));
    let statements = [
        declare_as(2, sum(local(0), local(1))),
        declare_as(3, deref(ok(ident(200 + k % 10, 62)))),
        label(ident(320, 80), 81),
        assign_value(sum(local(2), parens(1, sum(local(3), local(0)))), 302),
        if_else(block(&[goto(ident(321, 82), 83)]), None),
        declare_as(4, call),
        assign_value(cat!(11, 1, 1, 3, local(4)), 303),
        print,
        if_else(block(&[assign(ident(302, 84))]), Some(block(&[assign(ident(304, 85))]))),
        block(&[declare_as(5, local(2)), assign(ident(305, 86)), loops()]),
        label(ident(321, 87), 88),
        assign(ident(302, 89)),
    ];
    let body = ok(cat!(list(&statements), 1, local(2), ident(k, 90)));
    cat!(1, 0, 1, 2, ident(k, 3), list(&[parameter(0), parameter(1)]), body, ok(num(3)))
}
