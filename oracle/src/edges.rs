//! An independent model of the edges that the second pass hands over: which
//! constant or structure was found to hold which, in order, also where the
//! holder already held itself. Compared with the original by the depths that
//! follow from the edges alone, and by the refusals among them.

use crate::read::Tree;
use penne::alpha::common::*;
use std::collections::{HashMap, HashSet};

/// Container and containee, by declaration number.
pub type Edge = (usize, usize);

/// What comes of an edge that is handed over.
#[derive(Debug, Clone, Copy, PartialEq, Eq)]
pub enum Outcome {
    Held,
    /// With it the holder holds itself: kind 14, 15 or 16.
    Ring,
    /// The holder held itself before: Poisoned.
    Late,
}

pub fn edges(tree: &Tree) -> Vec<Edge> {
    outcomes(tree).into_iter().map(|(edge, _)| edge).collect()
}

pub fn outcomes(tree: &Tree) -> Vec<(Edge, Outcome)> {
    let mut model = Model { rows: Vec::new(), edges: Vec::new() };
    for (declaration, it) in tree.declarations.iter().enumerate() {
        let (name, is_structure) = match it {
            Declaration::Constant { name, .. } => (name, false),
            Declaration::Structure { name, .. } => (name, true),
            _ => continue,
        };
        model.rows.push(Row { declaration, name: &name.name, is_structure, holds: HashSet::new() });
    }
    for (declaration, it) in tree.declarations.iter().enumerate() {
        match it {
            Declaration::Constant { name, value, value_type, .. } => {
                let row = model.find(&name.name, false).unwrap();
                // A duplicate is not analysed.
                if model.rows[row].declaration == declaration {
                    model.value(row, value);
                    model.own_type(row, value_type);
                }
            }
            Declaration::Structure { name, members, .. } => {
                let row = model.find(&name.name, true).unwrap();
                if model.rows[row].declaration == declaration {
                    model.members(row, members);
                }
            }
            _ => (),
        }
    }
    model.edges
}

/// The depth of a declaration as it follows from the edges alone: the longest
/// chain that begins there, or none for what reaches a ring.
pub fn depths(edges: &[Edge]) -> impl Fn(usize) -> Option<usize> {
    let ends: HashSet<usize> = edges.iter().flat_map(|&(from, to)| [from, to]).collect();
    // A chain without a ring has fewer edges than ends. Every round makes all
    // that reaches a ring one longer, so as many rounds tell the two apart.
    let end = ends.len();
    let mut longest: HashMap<usize, usize> = HashMap::new();
    for _ in 0..end {
        for &(from, to) in edges {
            let chain = longest.get(&to).map_or(1, |chain| chain + 1).min(end);
            let known = longest.entry(from).or_default();
            *known = chain.max(*known);
        }
    }
    move |declaration| match longest.get(&declaration) {
        None => Some(0),
        Some(chain) => Some(*chain).filter(|chain| *chain < end),
    }
}

struct Row<'a> {
    declaration: usize,
    name: &'a str,
    is_structure: bool,
    holds: HashSet<usize>,
}

struct Model<'a> {
    rows: Vec<Row<'a>>,
    edges: Vec<(Edge, Outcome)>,
}

/// A type or an edge that is refused stops what stands behind it.
type Refused = Result<(), ()>;

impl Model<'_> {
    fn find(&self, name: &str, is_structure: bool) -> Option<usize> {
        self.rows.iter().position(|row| row.is_structure == is_structure && row.name == name)
    }

    fn hand_over(&mut self, from: usize, to: usize) -> Refused {
        let outcome = self.hold(from, to);
        self.edges.push(((self.rows[from].declaration, self.rows[to].declaration), outcome));
        if outcome == Outcome::Held {
            Ok(())
        } else {
            Err(())
        }
    }

    fn hold(&mut self, from: usize, to: usize) -> Outcome {
        if self.rows[from].holds.contains(&from) {
            return Outcome::Late;
        }
        let mut more = self.rows[to].holds.clone();
        more.insert(to);
        self.rows[from].holds.extend(&more);
        if self.rows[from].holds.contains(&from) {
            return Outcome::Ring;
        }
        for row in &mut self.rows {
            if row.holds.contains(&from) {
                row.holds.extend(&more);
            }
        }
        Outcome::Held
    }

    /// A use or a type's name; an edge if it stands in the value of a constant.
    fn found(&mut self, within: Option<usize>, name: &Identifier, is_structure: bool) -> Refused {
        let to = self.find(&name.name, is_structure).ok_or(())?;
        within.map_or(Ok(()), |from| self.hand_over(from, to))
    }

    /// A type that is looked at: through pointers and views too.
    fn looked_at(&mut self, within: Option<usize>, value_type: &ValueType) -> Refused {
        match value_type {
            ValueType::Struct { identifier }
            | ValueType::Word { identifier, .. }
            | ValueType::UnresolvedStructOrWord { identifier: Some(identifier) } => {
                self.found(within, identifier, true)
            }
            ValueType::ArrayWithNamedLength { element_type, named_length } => {
                self.looked_at(within, element_type)?;
                self.found(within, named_length, false)
            }
            ValueType::Array { element_type, .. }
            | ValueType::Slice { element_type }
            | ValueType::SlicePointer { element_type }
            | ValueType::EndlessArray { element_type }
            | ValueType::Arraylike { element_type } => self.looked_at(within, element_type),
            ValueType::Pointer { deref_type } | ValueType::View { deref_type } => {
                self.looked_at(within, deref_type)
            }
            _ => Ok(()),
        }
    }

    /// A constant's or member's own type: first looked at as a whole, without
    /// edges, then held, but not behind a pointer or a view.
    fn own_type(&mut self, from: usize, value_type: &Poisonable<ValueType>) {
        if let Ok(value_type) = value_type {
            let _ = self.looked_at(None, value_type).and_then(|()| self.held(from, value_type));
        }
    }

    fn held(&mut self, from: usize, value_type: &ValueType) -> Refused {
        match value_type {
            ValueType::Pointer { .. } | ValueType::View { .. } => Ok(()),
            ValueType::ArrayWithNamedLength { element_type, named_length } => {
                self.held(from, element_type)?;
                self.found(Some(from), named_length, false)
            }
            ValueType::Array { element_type, .. }
            | ValueType::Slice { element_type }
            | ValueType::SlicePointer { element_type }
            | ValueType::EndlessArray { element_type }
            | ValueType::Arraylike { element_type } => self.held(from, element_type),
            other => self.looked_at(Some(from), other),
        }
    }

    fn members(&mut self, from: usize, members: &[Member]) {
        let mut declared = HashSet::new();
        for member in members {
            let Ok(name) = &member.name else { continue };
            // Refused when a constant or an earlier member has the name.
            let stands = declared.insert(&name.name) && self.find(&name.name, false).is_none();
            if stands {
                self.own_type(from, &member.value_type);
            }
        }
    }

    fn value(&mut self, from: usize, expression: &Expression) {
        match expression {
            Expression::Binary { left, right, .. } => {
                self.value(from, left);
                self.value(from, right);
            }
            Expression::Unary { expression, .. } | Expression::BitCast { expression, .. } => {
                self.value(from, expression)
            }
            Expression::Parenthesized { inner, .. } => self.value(from, inner),
            Expression::ArrayLiteral { array, .. } => {
                array.elements.iter().for_each(|element| self.value(from, element))
            }
            Expression::Structural { members, structural_type, .. } => {
                members.iter().for_each(|member| self.value(from, &member.expression));
                if let Ok(value_type) = structural_type {
                    let _ = self.looked_at(Some(from), value_type);
                }
            }
            Expression::Deref { reference, .. } | Expression::LengthOfArray { reference, .. } => {
                if let Ok(base) = &reference.base {
                    let _ = self.found(Some(from), base, false);
                }
                for step in &reference.steps {
                    if let ReferenceStep::Element { argument, .. } = step {
                        self.value(from, argument);
                    }
                }
            }
            Expression::TypeCast { expression, coerced_type, .. } => {
                if self.looked_at(Some(from), coerced_type).is_ok() {
                    self.value(from, expression);
                }
            }
            Expression::SizeOf { queried_type, .. } => {
                let _ = self.looked_at(Some(from), queried_type);
            }
            Expression::FunctionCall { arguments, .. } => {
                arguments.iter().for_each(|argument| self.value(from, argument))
            }
            _ => (),
        }
    }
}
