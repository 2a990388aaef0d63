//! A tree beside its answer, node by node: what became of each use.

use penne::alpha::common::*;
use penne::alpha::error::Error;

/// What became of a use.
pub enum Outcome {
    /// Resolved, to this id.
    Stands(u32),
    Undefined,
    /// Kind 13, with the declaration's offset.
    Skipped(usize),
    Poisoned,
}

fn outcome(base: &Poisonable<Identifier>) -> Outcome {
    match base {
        Ok(identifier) => Outcome::Stands(identifier.resolution_id),
        Err(Poison::Poisoned) => Outcome::Poisoned,
        Err(Poison::Error(Error::UndefinedVariable { .. })) => Outcome::Undefined,
        Err(Poison::Error(Error::VariableDeclarationMayBeSkipped {
            location_of_declaration,
            ..
        })) => Outcome::Skipped(location_of_declaration.offset()),
        Err(other) => panic!("not an outcome of a use in a body: {other:?}"),
    }
}

pub fn body_of(declaration: &Declaration) -> Option<&FunctionBody> {
    match declaration {
        Declaration::Function { body: Ok(body), .. } => Some(body),
        _ => None,
    }
}

pub type Outcomes = Vec<(usize, Outcome)>;

/// What became of each examined use of a tree in which nothing is dropped.
pub fn outcomes(before: &[Declaration], after: &[Declaration]) -> Outcomes {
    let mut found = Vec::new();
    for (before, after) in before.iter().zip(after) {
        // A function that is not kept is a poison in the answer.
        if let (Some(before), Some(after)) = (body_of(before), body_of(after)) {
            beside_all(&before.statements, &after.statements, &mut found, beside_statement);
            beside_option(&before.return_value, &after.return_value, &mut found);
        }
    }
    found
}

fn beside_all<T>(
    before: &[T],
    after: &[T],
    found: &mut Outcomes,
    beside: impl Fn(&T, &T, &mut Outcomes),
) {
    assert_eq!(before.len(), after.len());
    before.iter().zip(after).for_each(|(before, after)| beside(before, after, found));
}

fn beside_option(before: &Option<Expression>, after: &Option<Expression>, found: &mut Outcomes) {
    beside_all(before.as_slice(), after.as_slice(), found, beside_expression);
}

fn beside_statement(before: &Statement, after: &Statement, found: &mut Outcomes) {
    match (before, after) {
        (Statement::Declaration { value: b, .. }, Statement::Declaration { value: a, .. }) => {
            beside_option(b, a, found)
        }
        (
            Statement::Assignment { reference: br, value: bv, .. },
            Statement::Assignment { reference: ar, value: av, .. },
        ) => {
            beside_expression(bv, av, found);
            beside_reference(br, ar, found);
        }
        (
            Statement::MethodCall { arguments: b, .. },
            Statement::MethodCall { arguments: a, .. },
        ) => beside_all(b, a, found, beside_expression),
        (
            Statement::If { condition: bc, then_branch: bt, else_branch: be, .. },
            Statement::If { condition: ac, then_branch: at, else_branch: ae, .. },
        ) => {
            beside_expression(&bc.left, &ac.left, found);
            beside_expression(&bc.right, &ac.right, found);
            beside_statement(bt, at, found);
            beside_all(be.as_slice(), ae.as_slice(), found, |b: &Else, a: &Else, found| {
                beside_statement(&b.branch, &a.branch, found)
            });
        }
        (Statement::Block(before), Statement::Block(after)) => {
            beside_all(&before.statements, &after.statements, found, beside_statement)
        }
        // No uses within; a goto or label may have become a poison.
        (Statement::Loop { .. } | Statement::Goto { .. }, _) => (),
        (Statement::Label { .. } | Statement::Poison(_), _) => (),
        (before, after) => panic!("{before:?} became {after:?}"),
    }
}

fn beside_expression(before: &Expression, after: &Expression, found: &mut Outcomes) {
    use Expression as E;
    match (before, after) {
        (E::Binary { left: bl, right: br, .. }, E::Binary { left: al, right: ar, .. }) => {
            beside_expression(bl, al, found);
            beside_expression(br, ar, found);
        }
        (E::Unary { expression: b, .. }, E::Unary { expression: a, .. })
        | (E::Parenthesized { inner: b, .. }, E::Parenthesized { inner: a, .. })
        | (E::BitCast { expression: b, .. }, E::BitCast { expression: a, .. })
        | (E::TypeCast { expression: b, .. }, E::TypeCast { expression: a, .. }) => {
            beside_expression(b, a, found)
        }
        (E::ArrayLiteral { array: b, .. }, E::ArrayLiteral { array: a, .. }) => {
            beside_all(&b.elements, &a.elements, found, beside_expression)
        }
        (E::Structural { members: b, .. }, E::Structural { members: a, .. }) => {
            beside_all(b, a, found, |b: &MemberExpression, a: &MemberExpression, found| {
                beside_expression(&b.expression, &a.expression, found)
            })
        }
        (E::Deref { reference: b, .. }, E::Deref { reference: a, .. })
        | (E::LengthOfArray { reference: b, .. }, E::LengthOfArray { reference: a, .. }) => {
            beside_reference(b, a, found)
        }
        (E::FunctionCall { arguments: b, .. }, E::FunctionCall { arguments: a, .. }) => {
            beside_all(b, a, found, beside_expression)
        }
        // The type is refused, so the operand is never looked at.
        (E::TypeCast { .. } | E::SizeOf { .. }, E::Poison(_)) => (),
        (E::SizeOf { .. }, E::SizeOf { .. }) => (),
        (E::BooleanLiteral { .. } | E::StringLiteral { .. } | E::Poison(_), _) => (),
        (E::SignedIntegerLiteral { .. } | E::BitIntegerLiteral { .. }, _) => (),
        (before, after) => panic!("{before:?} became {after:?}"),
    }
}

fn beside_reference(before: &Reference, after: &Reference, found: &mut Outcomes) {
    if let Ok(base) = &before.base {
        found.push((base.location.offset(), outcome(&after.base)));
    }
    beside_all(&before.steps, &after.steps, found, |before: &ReferenceStep, after, found| {
        match (before, after) {
            (
                ReferenceStep::Element { argument: b, .. },
                ReferenceStep::Element { argument: a, .. },
            ) => beside_expression(b, a, found),
            (ReferenceStep::Member { .. }, ReferenceStep::Member { .. }) => (),
            (before, after) => panic!("{before:?} became {after:?}"),
        }
    });
}
