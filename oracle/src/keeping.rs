//! The changed trees on which the original is watched.

use crate::beside::body_of;
use penne::alpha::common::*;

/// A tree in which no examined use is dropped: calls are builtin calls, and a
/// declaration statement that the original poisoned has a name of its own.
pub fn keep_all(input: &[Declaration], answered: &[Declaration]) -> Vec<Declaration> {
    let mut kept = input.to_vec();
    let mut fresh = Fresh(0);
    for (declaration, after) in kept.iter_mut().zip(answered) {
        if let (Some(body), Some(after)) = (body_mut(declaration), body_of(after)) {
            for (statement, after) in body.statements.iter_mut().zip(&after.statements) {
                keep(statement, after, &mut fresh);
            }
            body.return_value.iter_mut().for_each(calls_to_builtins);
        }
    }
    kept
}

/// A tree in whose constants nothing is dropped.
pub fn keep_in_constants(input: &[Declaration]) -> Vec<Declaration> {
    let mut kept = input.to_vec();
    for declaration in &mut kept {
        if let Declaration::Constant { value, .. } = declaration {
            calls_to_builtins(value);
        }
    }
    kept
}

/// Names that occur nowhere: a tree's are 64 bytes at most, or spelled.
struct Fresh(usize);

impl Fresh {
    fn name(&mut self) -> String {
        self.0 += 1;
        format!("{:0>80}", self.0)
    }
}

fn body_mut(declaration: &mut Declaration) -> Option<&mut FunctionBody> {
    match declaration {
        Declaration::Function { body: Ok(body), .. } => Some(body),
        _ => None,
    }
}

fn keep(statement: &mut Statement, after: &Statement, fresh: &mut Fresh) {
    match (statement, after) {
        (Statement::Declaration { name, value, .. }, after) => {
            value.iter_mut().for_each(calls_to_builtins);
            if let Statement::Poison(_) = after {
                name.name = fresh.name();
            }
        }
        (Statement::Assignment { reference, value, .. }, _) => {
            calls_to_builtins(value);
            in_steps(reference);
        }
        (Statement::MethodCall { builtin, arguments, .. }, _) => {
            *builtin = Some(Builtin::Print);
            arguments.iter_mut().for_each(calls_to_builtins);
        }
        (
            Statement::If { condition, then_branch, else_branch, .. },
            Statement::If { then_branch: then_after, else_branch: else_after, .. },
        ) => {
            calls_to_builtins(&mut condition.left);
            calls_to_builtins(&mut condition.right);
            keep(then_branch, then_after, fresh);
            if let (Some(other), Some(after)) = (else_branch, else_after) {
                keep(&mut other.branch, &after.branch, fresh);
            }
        }
        (Statement::Block(block), Statement::Block(after)) => {
            for (statement, after) in block.statements.iter_mut().zip(&after.statements) {
                keep(statement, after, fresh);
            }
        }
        (Statement::Loop { .. } | Statement::Goto { .. }, _) => (),
        (Statement::Label { .. } | Statement::Poison(_), _) => (),
        (before, after) => panic!("{before:?} became {after:?}"),
    }
}

fn calls_to_builtins(expression: &mut Expression) {
    if let Expression::FunctionCall { builtin, .. } = expression {
        *builtin = Some(Builtin::Print);
    }
    match expression {
        Expression::Deref { reference, .. } | Expression::LengthOfArray { reference, .. } => {
            in_steps(reference)
        }
        other => parts(other).into_iter().for_each(calls_to_builtins),
    }
}

fn in_steps(reference: &mut Reference) {
    for step in &mut reference.steps {
        if let ReferenceStep::Element { argument, .. } = step {
            calls_to_builtins(argument);
        }
    }
}

/// The expressions directly within one that is no reference.
fn parts(expression: &mut Expression) -> Vec<&mut Expression> {
    match expression {
        Expression::Binary { left, right, .. } => vec![left, right],
        Expression::Unary { expression, .. }
        | Expression::BitCast { expression, .. }
        | Expression::TypeCast { expression, .. } => vec![expression],
        Expression::Parenthesized { inner, .. } => vec![inner],
        Expression::ArrayLiteral { array, .. } => array.elements.iter_mut().collect(),
        Expression::Structural { members, .. } => {
            members.iter_mut().map(|member| &mut member.expression).collect()
        }
        Expression::FunctionCall { arguments, .. } => arguments.iter_mut().collect(),
        _ => Vec::new(),
    }
}

/// Every goto a loop instead: a statement that no pass looks at.
pub fn without_gotos(declarations: &[Declaration]) -> Vec<Declaration> {
    let mut plain = declarations.to_vec();
    for declaration in &mut plain {
        if let Some(body) = body_mut(declaration) {
            body.statements.iter_mut().for_each(forget_gotos);
        }
    }
    plain
}

fn forget_gotos(statement: &mut Statement) {
    match statement {
        Statement::Goto { location, .. } => {
            let location = location.clone();
            *statement = Statement::Loop { location };
        }
        Statement::If { then_branch, else_branch, .. } => {
            forget_gotos(then_branch);
            if let Some(other) = else_branch {
                forget_gotos(&mut other.branch);
            }
        }
        Statement::Block(block) => block.statements.iter_mut().for_each(forget_gotos),
        _ => (),
    }
}
