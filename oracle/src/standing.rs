//! The uses that still stand in an answer.

use crate::beside::body_of;
use penne::alpha::common::*;

/// The base of every reference that stands in a body of an answer, in order.
pub fn each_standing(answered: &[Declaration], see: &mut impl FnMut(&Poisonable<Identifier>)) {
    for body in answered.iter().filter_map(body_of) {
        body.statements.iter().for_each(|statement| standing_in_statement(statement, see));
        body.return_value.iter().for_each(|value| standing_in(value, see));
    }
}

fn standing_in_statement(statement: &Statement, see: &mut impl FnMut(&Poisonable<Identifier>)) {
    match statement {
        Statement::Declaration { value, .. } => value.iter().for_each(|v| standing_in(v, see)),
        Statement::Assignment { reference, value, .. } => {
            standing_in(value, see);
            standing_in_reference(reference, see);
        }
        Statement::MethodCall { arguments, .. } => {
            arguments.iter().for_each(|argument| standing_in(argument, see))
        }
        Statement::If { condition, then_branch, else_branch, .. } => {
            standing_in(&condition.left, see);
            standing_in(&condition.right, see);
            standing_in_statement(then_branch, see);
            else_branch.iter().for_each(|other| standing_in_statement(&other.branch, see));
        }
        Statement::Block(block) => {
            block.statements.iter().for_each(|statement| standing_in_statement(statement, see))
        }
        _ => (),
    }
}

fn standing_in(expression: &Expression, see: &mut impl FnMut(&Poisonable<Identifier>)) {
    match expression {
        Expression::Deref { reference, .. } | Expression::LengthOfArray { reference, .. } => {
            standing_in_reference(reference, see)
        }
        other => parts(other).into_iter().for_each(|part| standing_in(part, see)),
    }
}

fn standing_in_reference(reference: &Reference, see: &mut impl FnMut(&Poisonable<Identifier>)) {
    see(&reference.base);
    for step in &reference.steps {
        if let ReferenceStep::Element { argument, .. } = step {
            standing_in(argument, see);
        }
    }
}

/// The expressions directly within one that is no reference.
fn parts(expression: &Expression) -> Vec<&Expression> {
    match expression {
        Expression::Binary { left, right, .. } => vec![left, right],
        Expression::Unary { expression, .. }
        | Expression::BitCast { expression, .. }
        | Expression::TypeCast { expression, .. } => vec![expression],
        Expression::Parenthesized { inner, .. } => vec![inner],
        Expression::ArrayLiteral { array, .. } => array.elements.iter().collect(),
        Expression::Structural { members, .. } => {
            members.iter().map(|member| &member.expression).collect()
        }
        Expression::FunctionCall { arguments, .. } => arguments.iter().collect(),
        _ => Vec::new(),
    }
}
