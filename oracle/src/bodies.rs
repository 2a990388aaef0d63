//! An independent model of what a function's body does, made from the tree as
//! it came in: one line of acts in text order, each use resolved, each goto
//! tied to its label. Written from the requirements (docs/FORM.md), not from the original's text; pruning
//! (`pruning.rs`) and walks (`walks.rs`) are both told over it.

use crate::read::Tree;
use penne::alpha::common::*;
use std::collections::{HashMap, HashSet};

/// One step of a body. Declarations and labels go by the offset of their
/// identifier in the input.
#[derive(Debug, Clone, Copy, PartialEq, Eq)]
pub enum Act {
    Use {
        offset: usize,
        of: Of,
    },
    /// A declaration statement is run.
    Run(usize),
    /// To the label it resolves to, if any.
    Goto(Option<usize>),
    Label(usize),
    Enter,
    Leave,
    /// An If: go on, or continue at this act.
    Fork(usize),
    /// Behind a then branch: continue at this act.
    Jump(usize),
}

/// What a use resolves to.
#[derive(Debug, Clone, Copy, PartialEq, Eq)]
pub enum Of {
    Nothing,
    Constant,
    Parameter(usize),
    Declared(usize),
}

impl Of {
    pub fn local(self) -> Option<usize> {
        match self {
            Of::Nothing | Of::Constant => None,
            Of::Parameter(offset) | Of::Declared(offset) => Some(offset),
        }
    }
}

pub struct Body {
    pub acts: Vec<Act>,
    /// No If in it has a declaration or a label for a branch: demand 3's premise.
    pub premise: bool,
}

/// The bodies of all kept functions, in order.
pub fn bodies(tree: &Tree) -> Vec<Body> {
    let mut globals = Globals::default();
    for declaration in &tree.declarations {
        match declaration {
            Declaration::Constant { name, .. } => globals.constants.insert(&name.name),
            Declaration::Structure { name, .. } => globals.structures.insert(&name.name),
            _ => false,
        };
    }
    let mut functions = HashSet::new();
    let mut found = Vec::new();
    for declaration in &tree.declarations {
        match declaration {
            Declaration::Function { name, parameters, body, .. } => {
                let kept = functions.insert(&name.name);
                if let (true, Ok(body)) = (kept, body) {
                    found.push(Teller::tell(&globals, parameters, body));
                }
            }
            Declaration::FunctionHead { name, .. } => {
                functions.insert(&name.name);
            }
            _ => (),
        }
    }
    found
}

#[derive(Default)]
struct Globals<'a> {
    constants: HashSet<&'a str>,
    structures: HashSet<&'a str>,
}

impl Globals<'_> {
    /// Is a type refused where it stands in a body?
    fn refuse(&self, value_type: &ValueType) -> bool {
        match value_type {
            ValueType::Struct { identifier }
            | ValueType::Word { identifier, .. }
            | ValueType::UnresolvedStructOrWord { identifier: Some(identifier) } => {
                !self.structures.contains(identifier.name.as_str())
            }
            ValueType::ArrayWithNamedLength { element_type, named_length } => {
                self.refuse(element_type) || !self.constants.contains(named_length.name.as_str())
            }
            ValueType::Array { element_type, .. }
            | ValueType::Slice { element_type }
            | ValueType::SlicePointer { element_type }
            | ValueType::EndlessArray { element_type }
            | ValueType::Arraylike { element_type } => self.refuse(element_type),
            ValueType::Pointer { deref_type } | ValueType::View { deref_type } => {
                self.refuse(deref_type)
            }
            _ => false,
        }
    }
}

struct Teller<'a> {
    globals: &'a Globals<'a>,
    /// Parameters first, then the open blocks, outermost first.
    scopes: Vec<Vec<(&'a str, Of)>>,
    /// The label's offset by the goto's.
    targets: HashMap<usize, usize>,
    acts: Vec<Act>,
    premise: bool,
}

impl<'a> Teller<'a> {
    fn tell(globals: &'a Globals, parameters: &'a [Parameter], body: &'a FunctionBody) -> Body {
        let named = parameters.iter().filter_map(|parameter| parameter.name.as_ref().ok());
        let parameters = named.map(|name| (&name.name[..], Of::Parameter(name.location.offset())));
        let mut teller = Teller {
            globals,
            scopes: vec![parameters.collect()],
            targets: Labels::resolve(body),
            acts: Vec::new(),
            premise: true,
        };
        teller.enter();
        body.statements.iter().for_each(|statement| teller.statement(statement));
        body.return_value.iter().for_each(|value| teller.expression(value));
        teller.leave();
        Body { acts: teller.acts, premise: teller.premise }
    }

    fn enter(&mut self) {
        self.scopes.push(Vec::new());
        self.acts.push(Act::Enter);
    }

    fn leave(&mut self) {
        self.scopes.pop();
        self.acts.push(Act::Leave);
    }

    /// Outermost first, and first declared; constants are outside of all.
    fn resolve(&self, name: &str) -> Of {
        if self.globals.constants.contains(name) {
            return Of::Constant;
        }
        let found = self.scopes.iter().flatten().find(|(declared, _)| *declared == name);
        found.map_or(Of::Nothing, |(_, of)| *of)
    }

    fn branch(&mut self, statement: &'a Statement) {
        if let Statement::Declaration { .. } | Statement::Label { .. } = statement {
            self.premise = false;
        }
        self.statement(statement);
    }

    fn statement(&mut self, statement: &'a Statement) {
        match statement {
            Statement::Declaration { name, value, .. } => {
                value.iter().for_each(|value| self.expression(value));
                let offset = name.location.offset();
                self.scopes.last_mut().unwrap().push((&name.name, Of::Declared(offset)));
                self.acts.push(Act::Run(offset));
            }
            Statement::Assignment { reference, value, .. } => {
                self.expression(value);
                self.reference(reference);
            }
            Statement::MethodCall { arguments, .. } => {
                arguments.iter().for_each(|argument| self.expression(argument))
            }
            Statement::Loop { .. } | Statement::Poison(_) => (),
            Statement::Goto { label, .. } => {
                self.acts.push(Act::Goto(self.targets.get(&label.location.offset()).copied()))
            }
            Statement::Label { label, .. } => self.acts.push(Act::Label(label.location.offset())),
            Statement::If { condition, then_branch, else_branch, .. } => {
                self.expression(&condition.left);
                self.expression(&condition.right);
                let fork = self.acts.len();
                self.acts.push(Act::Fork(0));
                self.branch(then_branch);
                let jump = self.acts.len();
                self.acts.push(Act::Jump(0));
                self.acts[fork] = Act::Fork(self.acts.len());
                else_branch.iter().for_each(|other| self.branch(&other.branch));
                self.acts[jump] = Act::Jump(self.acts.len());
            }
            Statement::Block(block) => {
                self.enter();
                block.statements.iter().for_each(|statement| self.statement(statement));
                self.leave();
            }
        }
    }

    fn expression(&mut self, expression: &'a Expression) {
        match expression {
            Expression::Binary { left, right, .. } => {
                self.expression(left);
                self.expression(right);
            }
            Expression::Unary { expression, .. } | Expression::BitCast { expression, .. } => {
                self.expression(expression)
            }
            Expression::Parenthesized { inner, .. } => self.expression(inner),
            Expression::ArrayLiteral { array, .. } => {
                array.elements.iter().for_each(|element| self.expression(element))
            }
            Expression::Structural { members, .. } => {
                members.iter().for_each(|member| self.expression(&member.expression))
            }
            Expression::Deref { reference, .. } | Expression::LengthOfArray { reference, .. } => {
                self.reference(reference)
            }
            Expression::TypeCast { expression, coerced_type, .. } => {
                if !self.globals.refuse(coerced_type) {
                    self.expression(expression);
                }
            }
            Expression::FunctionCall { arguments, .. } => {
                arguments.iter().for_each(|argument| self.expression(argument))
            }
            _ => (),
        }
    }

    fn reference(&mut self, reference: &'a Reference) {
        if let Ok(base) = &reference.base {
            let of = self.resolve(&base.name);
            self.acts.push(Act::Use { offset: base.location.offset(), of });
        }
        for step in &reference.steps {
            if let ReferenceStep::Element { argument, .. } = step {
                self.expression(argument);
            }
        }
    }
}

/// Gotos and labels: a list of statements is visited last to first, an If's
/// then branch before its else.
#[derive(Default)]
struct Labels<'a> {
    scopes: Vec<Vec<&'a Identifier>>,
    targets: HashMap<usize, usize>,
}

impl<'a> Labels<'a> {
    fn resolve(body: &'a FunctionBody) -> HashMap<usize, usize> {
        let mut labels = Labels::default();
        labels.list(&body.statements);
        labels.targets
    }

    fn list(&mut self, statements: &'a [Statement]) {
        self.scopes.push(Vec::new());
        statements.iter().rev().for_each(|statement| self.statement(statement));
        self.scopes.pop();
    }

    fn statement(&mut self, statement: &'a Statement) {
        match statement {
            Statement::Goto { label, .. } => {
                let target = self.scopes.iter().flatten().find(|other| other.name == label.name);
                if let Some(target) = target {
                    self.targets.insert(label.location.offset(), target.location.offset());
                }
            }
            Statement::Label { label, .. } => self.scopes.last_mut().unwrap().push(label),
            Statement::If { then_branch, else_branch, .. } => {
                self.statement(then_branch);
                else_branch.iter().for_each(|other| self.statement(&other.branch));
            }
            Statement::Block(block) => self.list(&block.statements),
            _ => (),
        }
    }
}
