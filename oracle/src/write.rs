//! The writer of the tree form: the original's declarations to bytes.

use crate::text;
use penne::alpha::common::*;
use penne::alpha::error::Error;
use std::collections::HashMap;

pub const POISON_KINDS: usize = 18;

/// The whole tree: the names as they came, the declarations, their depths.
pub fn write(names: &[Vec<u8>], declarations: &[Declaration]) -> Vec<u8> {
    write_counting(names, declarations).0
}

/// With the number of poisons of each kind among the declarations.
pub fn write_counting(
    names: &[Vec<u8>],
    declarations: &[Declaration],
) -> (Vec<u8>, [usize; POISON_KINDS]) {
    let numbers = (0..).zip(names).map(|(n, name)| (text::from_bytes(name), n)).collect();
    let mut writer = Writer { bytes: Vec::new(), numbers, poisons: [0; POISON_KINDS] };
    writer.list(names, |w, name| {
        w.number(name.len() as u32);
        w.bytes.extend(name);
    });
    writer.list(declarations, Writer::declaration);
    for declaration in declarations {
        writer.number(depth_number(declaration));
    }
    (writer.bytes, writer.poisons)
}

/// 0 none, 1 poisoned, 2 + d.
pub fn depth_number(declaration: &Declaration) -> u32 {
    match declaration {
        Declaration::Constant { depth, .. } | Declaration::Structure { depth, .. } => match depth {
            None => 0,
            Some(Err(_)) => 1,
            Some(Ok(depth)) => 2 + depth,
        },
        _ => 0,
    }
}

pub fn number(bytes: &mut Vec<u8>, mut value: u32) {
    while value > 0x7F {
        bytes.push(value as u8 | 0x80);
        value >>= 7;
    }
    bytes.push(value as u8);
}

/// The form's number of a poison, with its names and places in the order of its fields.
pub fn poison_fields(poison: &Poison) -> (u32, Vec<&String>, Vec<&Location>) {
    let error = match poison {
        Poison::Poisoned => return (0, vec![], vec![]),
        Poison::Error(error) => error,
    };
    match error {
        Error::DuplicateDeclarationLabel { name, location, previous } => {
            (1, vec![name], vec![location, previous])
        }
        Error::UndefinedLabel { name, location } => (2, vec![name], vec![location]),
        Error::DuplicateDeclarationConstant { name, location, previous } => {
            (3, vec![name], vec![location, previous])
        }
        Error::DuplicateDeclarationVariable { name, location, previous } => {
            (4, vec![name], vec![location, previous])
        }
        Error::DuplicateDeclarationParameter { name, location, previous } => {
            (5, vec![name], vec![location, previous])
        }
        Error::DuplicateDeclarationMember { name, location, previous } => {
            (6, vec![name], vec![location, previous])
        }
        Error::DuplicateDeclarationFunction { name, location, previous } => {
            (7, vec![name], vec![location, previous])
        }
        Error::DuplicateDeclarationStructure { name, location, previous } => {
            (8, vec![name], vec![location, previous])
        }
        Error::UndefinedVariable { name, location } => (9, vec![name], vec![location]),
        Error::UndefinedFunction { name, location } => (10, vec![name], vec![location]),
        Error::UndefinedStructure { name, location } => (11, vec![name], vec![location]),
        Error::NotACompileTimeConstant { name, location, location_of_declaration } => {
            (12, vec![name], vec![location, location_of_declaration])
        }
        Error::VariableDeclarationMayBeSkipped {
            name,
            label,
            location,
            location_of_declaration,
            location_of_goto,
            location_of_label,
        } => (
            13,
            vec![name, label],
            vec![location, location_of_declaration, location_of_goto, location_of_label],
        ),
        Error::CyclicalConstant { name, location } => (14, vec![name], vec![location]),
        Error::CyclicalStructure {
            name_of_structure,
            location_of_declaration,
            location_of_member,
        } => (15, vec![name_of_structure], vec![location_of_declaration, location_of_member]),
        Error::CyclicalStructureWithConstant {
            name_of_structure,
            name_of_constant,
            location_of_declaration,
            location_of_member,
            location_of_constant,
        } => (
            16,
            vec![name_of_structure, name_of_constant],
            vec![location_of_declaration, location_of_member, location_of_constant],
        ),
        Error::UnexpectedToken { location, .. } => (17, vec![], vec![location]),
        other => panic!("no pass makes this error: {other:?}"),
    }
}

struct Writer {
    bytes: Vec<u8>,
    numbers: HashMap<String, u32>,
    poisons: [usize; POISON_KINDS],
}

// Fields.
impl Writer {
    fn number(&mut self, value: u32) {
        number(&mut self.bytes, value);
    }

    fn place(&mut self, location: &Location) {
        self.number(location.place);
    }

    fn name(&mut self, name: &String) {
        self.number(self.numbers[name]);
    }

    /// 0 none, else 1 + number.
    fn one_more(&mut self, value: Option<u32>) {
        self.number(value.map_or(0, |n| n + 1));
    }

    fn sized(&mut self, bytes: &[u8]) {
        self.number(bytes.len() as u32);
        self.bytes.extend(bytes);
    }

    fn list<T>(&mut self, items: &[T], item: impl Fn(&mut Self, &T)) {
        self.number(items.len() as u32);
        for it in items {
            item(self, it);
        }
    }

    fn option<T>(&mut self, value: &Option<T>, some: impl FnOnce(&mut Self, &T)) {
        self.number(value.is_some() as u32);
        if let Some(value) = value {
            some(self, value);
        }
    }

    fn maybe<T>(&mut self, value: &Poisonable<T>, good: impl FnOnce(&mut Self, &T)) {
        self.number(value.is_err() as u32);
        match value {
            Ok(value) => good(self, value),
            Err(poison) => self.poison(poison),
        }
    }

    fn identifier(&mut self, identifier: &Identifier) {
        self.name(&identifier.name);
        self.place(&identifier.location);
        self.number(identifier.resolution_id);
        self.number(identifier.is_authoritative as u32);
    }

    fn poison(&mut self, poison: &Poison) {
        let (kind, names, places) = poison_fields(poison);
        self.poisons[kind as usize] += 1;
        self.number(kind);
        for name in names {
            self.name(name);
        }
        for place in places {
            self.place(place);
        }
    }
}

// Nodes, and the parts between them.
impl Writer {
    fn value_type(&mut self, value_type: &ValueType) {
        let plain = |w: &mut Self, kind| w.number(kind);
        let one = |w: &mut Self, kind, inner: &ValueType| {
            w.number(kind);
            w.value_type(inner);
        };
        match value_type {
            ValueType::Void => plain(self, 0),
            ValueType::Int8 => plain(self, 1),
            ValueType::Int16 => plain(self, 2),
            ValueType::Int32 => plain(self, 3),
            ValueType::Int64 => plain(self, 4),
            ValueType::Int128 => plain(self, 5),
            ValueType::Uint8 => plain(self, 6),
            ValueType::Uint16 => plain(self, 7),
            ValueType::Uint32 => plain(self, 8),
            ValueType::Uint64 => plain(self, 9),
            ValueType::Uint128 => plain(self, 10),
            ValueType::Usize => plain(self, 11),
            ValueType::Char8 => plain(self, 12),
            ValueType::Bool => plain(self, 13),
            ValueType::Array { element_type, length } => {
                one(self, 14, element_type);
                self.number(*length as u32);
            }
            ValueType::ArrayWithNamedLength { element_type, named_length } => {
                one(self, 15, element_type);
                self.identifier(named_length);
            }
            ValueType::Slice { element_type } => one(self, 16, element_type),
            ValueType::SlicePointer { element_type } => one(self, 17, element_type),
            ValueType::EndlessArray { element_type } => one(self, 18, element_type),
            ValueType::Arraylike { element_type } => one(self, 19, element_type),
            ValueType::Struct { identifier } => {
                self.number(20);
                self.identifier(identifier);
            }
            ValueType::Word { identifier, size_in_bytes } => {
                self.number(21);
                self.identifier(identifier);
                self.number(*size_in_bytes as u32);
            }
            ValueType::UnresolvedStructOrWord { identifier: Some(identifier) } => {
                self.number(22);
                self.identifier(identifier);
            }
            ValueType::UnresolvedStructOrWord { identifier: None } => plain(self, 23),
            ValueType::Pointer { deref_type } => one(self, 24, deref_type),
            ValueType::View { deref_type } => one(self, 25, deref_type),
        }
    }

    fn maybe_type(&mut self, value: &Poisonable<ValueType>) {
        self.maybe(value, Self::value_type);
    }

    fn carried(&mut self, value: &Option<Poisonable<ValueType>>) {
        self.option(value, Self::maybe_type);
    }

    fn callee(&mut self, name: &Identifier, builtin: &Option<Builtin>) {
        self.identifier(name);
        self.one_more(builtin.map(|_| name.location.opaque));
    }

    fn expression(&mut self, expression: &Expression) {
        match expression {
            Expression::Binary { op: _, left, right, location, location_of_op } => {
                self.number(0);
                self.number(location.opaque);
                self.place(location);
                self.place(location_of_op);
                self.expression(left);
                self.expression(right);
            }
            Expression::Unary { op: _, expression, location, location_of_op } => {
                self.number(1);
                self.number(location.opaque);
                self.place(location);
                self.place(location_of_op);
                self.expression(expression);
            }
            Expression::BooleanLiteral { value, location } => {
                self.number(2);
                self.number(*value as u32);
                self.place(location);
            }
            Expression::SignedIntegerLiteral { value, value_type, location } => {
                self.number(3);
                self.bytes.extend(value.to_le_bytes());
                self.place(location);
                self.carried(value_type);
            }
            Expression::BitIntegerLiteral { value, value_type, location } => {
                self.number(4);
                self.bytes.extend(value.to_le_bytes());
                self.place(location);
                self.carried(value_type);
            }
            Expression::StringLiteral { bytes, location } => {
                self.number(5);
                self.sized(bytes);
                self.place(location);
            }
            Expression::ArrayLiteral { array, element_type } => {
                self.number(6);
                self.place(&array.location);
                self.carried(element_type);
                self.list(&array.elements, Self::expression);
                self.number(array.resolution_id);
            }
            Expression::Structural { members, structural_type, location } => {
                self.number(7);
                self.place(location);
                self.list(members, |w, member| {
                    w.maybe(&member.name, Self::identifier);
                    w.one_more(member.offset.map(|n| n as u32));
                    w.expression(&member.expression);
                });
                self.maybe_type(structural_type);
            }
            Expression::Parenthesized { inner, location } => {
                self.number(8);
                self.place(location);
                self.expression(inner);
            }
            Expression::Deref { reference, deref_type } => {
                self.number(9);
                self.carried(deref_type);
                self.reference(reference);
            }
            Expression::BitCast { expression, coerced_type, location, location_of_keyword } => {
                self.number(10);
                self.place(location);
                self.place(location_of_keyword);
                self.carried(coerced_type);
                self.expression(expression);
            }
            Expression::TypeCast { expression, coerced_type, location, location_of_type } => {
                self.number(11);
                self.place(location);
                self.place(location_of_type);
                self.value_type(coerced_type);
                self.expression(expression);
            }
            Expression::LengthOfArray { reference, location } => {
                self.number(12);
                self.place(location);
                self.reference(reference);
            }
            Expression::SizeOf { queried_type, location } => {
                self.number(13);
                self.place(location);
                self.value_type(queried_type);
            }
            Expression::FunctionCall { name, builtin, arguments, return_type } => {
                self.number(14);
                self.callee(name, builtin);
                self.carried(return_type);
                self.list(arguments, Self::expression);
            }
            Expression::Poison(poison) => {
                self.number(15);
                self.poison(poison);
            }
            Expression::Autocoerce { .. } => panic!("an expression without a kind"),
        }
    }

    fn reference(&mut self, reference: &Reference) {
        self.number(reference.address_depth as u32);
        self.place(&reference.location);
        self.place(&reference.location_of_unaddressed);
        self.maybe(&reference.base, Self::identifier);
        self.list(&reference.steps, Self::step);
    }

    fn step(&mut self, step: &ReferenceStep) {
        match step {
            ReferenceStep::Element { argument, is_endless } => {
                self.number(0);
                self.one_more(is_endless.map(|endless| endless as u32));
                self.expression(argument);
            }
            ReferenceStep::Member { member, offset } => {
                self.number(1);
                self.identifier(member);
                self.one_more(offset.map(|n| n as u32));
            }
            other => panic!("a step without a kind: {other:?}"),
        }
    }

    fn statement(&mut self, statement: &Statement) {
        match statement {
            Statement::Declaration { name, value, value_type, location } => {
                self.number(0);
                self.place(location);
                self.option(value, Self::expression);
                self.carried(value_type);
                self.identifier(name);
            }
            Statement::Assignment { reference, value, location } => {
                self.number(1);
                self.place(location);
                self.expression(value);
                self.reference(reference);
            }
            Statement::MethodCall { name, builtin, arguments } => {
                self.number(2);
                self.callee(name, builtin);
                self.list(arguments, Self::expression);
            }
            Statement::Loop { location } => {
                self.number(3);
                self.place(location);
            }
            Statement::Goto { label, location } => {
                self.number(4);
                self.identifier(label);
                self.place(location);
            }
            Statement::Label { label, location } => {
                self.number(5);
                self.identifier(label);
                self.place(location);
            }
            Statement::If { condition, then_branch, else_branch, location } => {
                self.number(6);
                self.place(location);
                self.number(condition.location.opaque);
                self.place(&condition.location);
                self.place(&condition.location_of_op);
                self.expression(&condition.left);
                self.expression(&condition.right);
                self.statement(then_branch);
                self.option(else_branch, |w, other| {
                    w.place(&other.location_of_else);
                    w.statement(&other.branch);
                });
            }
            Statement::Block(block) => {
                self.number(7);
                self.place(&block.location);
                self.list(&block.statements, Self::statement);
            }
            Statement::Poison(poison) => {
                self.number(8);
                self.poison(poison);
            }
        }
    }

    fn entry(
        &mut self,
        location: &Location,
        name: &Poisonable<Identifier>,
        value_type: &Poisonable<ValueType>,
    ) {
        self.place(location);
        self.maybe(name, Self::identifier);
        self.maybe_type(value_type);
    }

    fn parameter(&mut self, parameter: &Parameter) {
        self.entry(&parameter.location_of_type, &parameter.name, &parameter.value_type);
    }

    fn member(&mut self, member: &Member) {
        self.entry(&member.location_of_type, &member.name, &member.value_type);
    }

    fn body(&mut self, body: &FunctionBody) {
        self.list(&body.statements, Self::statement);
        self.option(&body.return_value, Self::expression);
        self.identifier(&body.return_value_identifier);
    }

    fn declaration(&mut self, declaration: &Declaration) {
        match declaration {
            Declaration::Constant {
                name,
                value,
                value_type,
                flags,
                depth: _,
                location_of_declaration,
                location_of_type,
            } => {
                self.number(0);
                self.number(flags.bits());
                self.place(location_of_declaration);
                self.place(location_of_type);
                self.identifier(name);
                self.expression(value);
                self.maybe_type(value_type);
            }
            Declaration::Function {
                name,
                parameters,
                body,
                return_type,
                flags,
                location_of_declaration,
                location_of_return_type,
            } => {
                self.number(1);
                self.number(flags.bits());
                self.place(location_of_declaration);
                self.place(location_of_return_type);
                self.identifier(name);
                self.list(parameters, Self::parameter);
                self.maybe(body, Self::body);
                self.maybe_type(return_type);
            }
            Declaration::FunctionHead {
                name,
                parameters,
                return_type,
                flags,
                location_of_declaration,
                location_of_return_type,
            } => {
                self.number(2);
                self.number(flags.bits());
                self.place(location_of_declaration);
                self.place(location_of_return_type);
                self.identifier(name);
                self.list(parameters, Self::parameter);
                self.maybe_type(return_type);
            }
            Declaration::Structure {
                name,
                members,
                structural_type,
                flags,
                depth: _,
                location_of_declaration,
            } => {
                self.number(3);
                self.number(flags.bits());
                self.place(location_of_declaration);
                self.identifier(name);
                self.list(members, Self::member);
                self.maybe_type(structural_type);
            }
            Declaration::Import { filename, location } => {
                self.number(4);
                self.sized(&text::to_bytes(filename));
                self.place(location);
            }
            Declaration::Poison(poison) => {
                self.number(5);
                self.poison(poison);
            }
        }
    }
}
