//! The bench sheet and P1 to P8, checked by the words of docs/FORM.md.

use crate::generate::form::Bytes;
use crate::generate::sheet;
use crate::listing;
use crate::passes::{scope, List, Record, BENCH};
use crate::read::{read, Depths, Tree};
use penne::alpha::common::*;
use penne::alpha::error::Error;

pub fn check() {
    let tree = sheet::hex(sheet::BENCH_SHEET);
    for list in [List::Pruning, List::Walks] {
        assert_eq!(listing(scope(&tree, BENCH, list)), sheet::BENCH_LISTING);
    }
    proved_set();
}

struct Answered {
    tree: Tree,
    bytes: Bytes,
    list: Vec<Record>,
    depths: Vec<u32>,
}

fn answered(input: &[u8]) -> Answered {
    let scoped = scope(input, BENCH, List::Pruning).unwrap();
    let tree = read(&scoped.answer, Depths::Answered).unwrap();
    Answered { tree, bytes: scoped.answer, list: scoped.list, depths: scoped.depths }
}

fn holds(bytes: &[u8], part: &[u8]) -> usize {
    bytes.windows(part.len()).filter(|window| *window == part).count()
}

fn proved_set() {
    let all: Vec<Answered> = sheet::proved().iter().map(|tree| answered(tree)).collect();
    let [p1, p2, p3, p4, p5, p6, p7, p8] = &all[..] else { panic!("eight are proved") };

    assert_eq!(p1.bytes, [0, 0]);

    assert_eq!(holds(&p2.bytes, &sheet::hex("01 0D 01 02 06 03 02 04")), 1);
    match &statements(p2)[3] {
        Statement::Assignment { reference, .. } => {
            assert!(matches!(reference.base, Err(Poison::Poisoned)))
        }
        other => panic!("{other:?}"),
    }
    assert_eq!(p2.list, [(50, 32), (59, 32)]);

    assert_eq!(p3.depths, [1, 1]);
    match &p3.tree.declarations[..] {
        [Declaration::Constant { value: first, .. }, Declaration::Constant { value: second, .. }] =>
        {
            assert_eq!(base(first).as_ref().unwrap().resolution_id, 2);
            match base(second) {
                Err(Poison::Error(Error::CyclicalConstant { name, .. })) => assert_eq!(name, "B"),
                other => panic!("{other:?}"),
            }
        }
        other => panic!("{other:?}"),
    }

    assert_eq!(p4.depths, [2, 3]);

    assert_eq!(p5.depths, [1]);
    let [a, b] = members(p5) else { panic!("two members") };
    assert!(matches!(a.value_type, Err(Poison::Error(Error::CyclicalStructure { .. }))));
    assert!(matches!(b.value_type, Err(Poison::Poisoned)));

    assert_eq!(p6.depths, [2]);
    let [_, b] = members(p6) else { panic!("two members") };
    assert!(matches!(b.name, Err(Poison::Error(Error::DuplicateDeclarationMember { .. }))));
    assert!(matches!(b.value_type, Ok(ValueType::Struct { .. })));

    assert_eq!(p7.list.len(), 2);
    for (statement, name_of_label) in [(4, "l"), (6, "m")] {
        match &statements(p7)[statement] {
            Statement::Assignment { reference, .. } => match &reference.base {
                Err(Poison::Error(Error::VariableDeclarationMayBeSkipped { label, .. })) => {
                    assert_eq!(label, name_of_label)
                }
                other => panic!("{other:?}"),
            },
            other => panic!("{other:?}"),
        }
    }

    match &statements(p8)[0] {
        Statement::If { then_branch, else_branch: Some(other), .. } => {
            assert_eq!(label_id(then_branch), 1);
            assert_eq!(label_id(&other.branch), 2);
        }
        other => panic!("{other:?}"),
    }
}

fn base(value: &Expression) -> &Poisonable<Identifier> {
    match value {
        Expression::Deref { reference, .. } => &reference.base,
        other => panic!("{other:?}"),
    }
}

fn members(answered: &Answered) -> &[Member] {
    match &answered.tree.declarations[0] {
        Declaration::Structure { members, .. } => members,
        other => panic!("{other:?}"),
    }
}

fn statements(answered: &Answered) -> &[Statement] {
    match &answered.tree.declarations[0] {
        Declaration::Function { body: Ok(body), .. } => &body.statements,
        other => panic!("{other:?}"),
    }
}

fn label_id(block: &Statement) -> u32 {
    match block {
        Statement::Block(block) => match &block.statements[0] {
            Statement::Label { label, .. } => label.resolution_id,
            other => panic!("{other:?}"),
        },
        other => panic!("{other:?}"),
    }
}
