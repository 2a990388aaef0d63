//! The reader of the tree form: bytes to the original's declarations, or the
//! refusal by rows 1 and 3 to 10 with its place.
//!
//! Every function reads the parts of one thing in the order in which they
//! stand, so the first refusal met is the first in reading order. At one place
//! the lowest number wins because each check there comes in number order.

use crate::refusal::*;
use crate::text;
use enumset::EnumSet;
use penne::alpha::common::*;
use penne::alpha::error::Error;

type Read<T> = Result<T, Refusal>;

/// How depths may stand.
#[derive(Clone, Copy, PartialEq, Eq)]
pub enum Depths {
    /// All 0, as on the way in.
    Incoming,
    /// Anything for constants and structures, 0 for the rest.
    Answered,
}

/// A tree that passed.
#[derive(Debug, Clone)]
pub struct Tree {
    pub names: Vec<Vec<u8>>,
    pub declarations: Vec<Declaration>,
}

/// One field as it was read, for showing.
pub struct Field {
    pub offset: usize,
    pub length: usize,
    pub word: &'static str,
    pub value: String,
}

pub fn read(tree: &[u8], depths: Depths) -> Read<Tree> {
    Reader::new(tree, depths).tree()
}

/// Reads on where row 9 alone would stop, to see what the original does there.
pub fn read_without_row_9(tree: &[u8]) -> Read<Tree> {
    let mut reader = Reader::new(tree, Depths::Incoming);
    reader.row_9 = false;
    reader.tree()
}

/// All fields up to the end or the refusal.
pub fn fields(tree: &[u8], depths: Depths) -> (Vec<Field>, Option<Refusal>) {
    let mut reader = Reader::new(tree, depths);
    reader.fields = Some(Vec::new());
    let refusal = reader.tree().err();
    (reader.fields.unwrap(), refusal)
}

/// What row 8 counts, apart from names.
#[derive(Default)]
struct Counts {
    containers: usize,
    functions: usize,
    entries: usize,
    statements: usize,
}

struct Reader<'a> {
    tree: &'a [u8],
    at: usize,
    depths: Depths,
    names: Vec<Vec<u8>>,
    texts: Vec<String>,
    counts: Counts,
    row_9: bool,
    fields: Option<Vec<Field>>,
}

fn count_one(count: &mut usize, limit: usize, place: usize) -> Read<()> {
    *count += 1;
    if *count > limit {
        return refuse(8, place);
    }
    Ok(())
}

// Fields.
impl<'a> Reader<'a> {
    fn new(tree: &'a [u8], depths: Depths) -> Self {
        Reader {
            tree,
            at: 0,
            depths,
            names: Vec::new(),
            texts: Vec::new(),
            counts: Counts::default(),
            row_9: true,
            fields: None,
        }
    }

    fn note(&mut self, offset: usize, word: &'static str, value: impl FnOnce() -> String) {
        if let Some(fields) = &mut self.fields {
            fields.push(Field { offset, length: self.at - offset, word, value: value() });
        }
    }

    fn number(&mut self, word: &'static str) -> Read<u32> {
        let place = self.at;
        let mut value = 0u64;
        for group in 0..5 {
            let Some(byte) = self.tree.get(place + group) else {
                return refuse(3, place);
            };
            value |= u64::from(byte & 0x7F) << (7 * group);
            if byte & 0x80 == 0 {
                let padded = group > 0 && *byte == 0;
                if padded || value > u64::from(u32::MAX) {
                    return refuse(4, place);
                }
                self.at = place + group + 1;
                self.note(place, word, || value.to_string());
                return Ok(value as u32);
            }
        }
        refuse(4, place)
    }

    /// A number in its range, which ends before `end`.
    fn below(&mut self, end: u32, word: &'static str) -> Read<u32> {
        let place = self.at;
        let value = self.number(word)?;
        if value >= end {
            return refuse(5, place);
        }
        Ok(value)
    }

    fn bytes(&mut self, length: usize, word: &'static str) -> Read<&'a [u8]> {
        let place = self.at;
        let tree = self.tree;
        // `place` never passes the end, so this subtraction is safe where an
        // addition to the length might not be.
        if length > tree.len() - place {
            return refuse(3, place);
        }
        self.at = place + length;
        let bytes = &tree[place..self.at];
        self.note(place, word, || bytes.iter().map(|b| format!("{b:02x}")).collect());
        Ok(bytes)
    }

    fn place(&mut self) -> Read<Location> {
        let offset = self.at;
        Ok(Location::at(offset, self.number("Place")?))
    }

    fn flags(&mut self) -> Read<EnumSet<DeclarationFlag>> {
        Ok(EnumSet::from_bits(self.below(32, "Flags")?))
    }

    fn name(&mut self) -> Read<String> {
        let number = self.below(self.texts.len() as u32, "Name")?;
        Ok(self.texts[number as usize].clone())
    }

    /// 0 none, else 1 + number.
    fn one_more(&mut self, word: &'static str) -> Read<Option<u32>> {
        Ok(self.number(word)?.checked_sub(1))
    }

    fn list<T>(&mut self, item: impl Fn(&mut Self) -> Read<T>) -> Read<Vec<T>> {
        let count = self.number("Count")?;
        // Not allocated ahead: a count says nothing about what is behind it.
        let mut items = Vec::new();
        for _ in 0..count {
            items.push(item(self)?);
        }
        Ok(items)
    }

    fn option<T>(&mut self, some: impl FnOnce(&mut Self) -> Read<T>) -> Read<Option<T>> {
        match self.below(2, "Tag")? {
            0 => Ok(None),
            _ => Ok(Some(some(self)?)),
        }
    }

    fn maybe<T>(&mut self, good: impl FnOnce(&mut Self) -> Read<T>) -> Read<Poisonable<T>> {
        match self.below(2, "Tag")? {
            0 => Ok(Ok(good(self)?)),
            _ => Ok(Err(self.poison()?)),
        }
    }
}

// Parts that are no nodes.
impl Reader<'_> {
    /// Its location begins where the identifier does, for the skip list.
    fn identifier(&mut self) -> Read<Identifier> {
        let offset = self.at;
        let name = self.name()?;
        let place = self.number("Place")?;
        let resolution_id = self.number("Id")?;
        let is_authoritative = self.below(2, "Authority")? == 1;
        let location = Location::at(offset, place);
        Ok(Identifier { name, location, resolution_id, is_authoritative })
    }

    /// Names first, then places.
    fn poison(&mut self) -> Read<Poison> {
        let error = match self.below(18, "Kind")? {
            0 => return Ok(Poison::Poisoned),
            1 => Error::DuplicateDeclarationLabel {
                name: self.name()?,
                location: self.place()?,
                previous: self.place()?,
            },
            2 => Error::UndefinedLabel { name: self.name()?, location: self.place()? },
            3 => Error::DuplicateDeclarationConstant {
                name: self.name()?,
                location: self.place()?,
                previous: self.place()?,
            },
            4 => Error::DuplicateDeclarationVariable {
                name: self.name()?,
                location: self.place()?,
                previous: self.place()?,
            },
            5 => Error::DuplicateDeclarationParameter {
                name: self.name()?,
                location: self.place()?,
                previous: self.place()?,
            },
            6 => Error::DuplicateDeclarationMember {
                name: self.name()?,
                location: self.place()?,
                previous: self.place()?,
            },
            7 => Error::DuplicateDeclarationFunction {
                name: self.name()?,
                location: self.place()?,
                previous: self.place()?,
            },
            8 => Error::DuplicateDeclarationStructure {
                name: self.name()?,
                location: self.place()?,
                previous: self.place()?,
            },
            9 => Error::UndefinedVariable { name: self.name()?, location: self.place()? },
            10 => Error::UndefinedFunction { name: self.name()?, location: self.place()? },
            11 => Error::UndefinedStructure { name: self.name()?, location: self.place()? },
            12 => Error::NotACompileTimeConstant {
                name: self.name()?,
                location: self.place()?,
                location_of_declaration: self.place()?,
            },
            13 => Error::VariableDeclarationMayBeSkipped {
                name: self.name()?,
                label: self.name()?,
                location: self.place()?,
                location_of_declaration: self.place()?,
                location_of_goto: self.place()?,
                location_of_label: self.place()?,
            },
            14 => Error::CyclicalConstant { name: self.name()?, location: self.place()? },
            15 => Error::CyclicalStructure {
                name_of_structure: self.name()?,
                location_of_declaration: self.place()?,
                location_of_member: self.place()?,
            },
            16 => Error::CyclicalStructureWithConstant {
                name_of_structure: self.name()?,
                name_of_constant: self.name()?,
                location_of_declaration: self.place()?,
                location_of_member: self.place()?,
                location_of_constant: self.place()?,
            },
            // An error that neither pass can make keeps the opaque number.
            _ => {
                let offset = self.at;
                let number = self.number("Error")?;
                Error::UnexpectedToken {
                    location: Location::at(offset, number),
                    expectation: String::new(),
                }
            }
        };
        Ok(Poison::Error(error))
    }

    fn carried(&mut self, nesting: usize) -> Read<Option<Poisonable<ValueType>>> {
        self.option(|r| r.maybe(|r| r.value_type(nesting, false)))
    }

    /// A parameter or a member: its place, its name, its type.
    fn entry(
        &mut self,
        nesting: usize,
        own: bool,
    ) -> Read<(Location, Poisonable<Identifier>, Poisonable<ValueType>)> {
        let first = self.at;
        let location = self.place()?;
        count_one(&mut self.counts.entries, ENTRIES, first)?;
        let name = self.maybe(|r| r.identifier())?;
        let value_type = self.maybe(|r| r.value_type(nesting, own))?;
        Ok((location, name, value_type))
    }

    fn parameter(&mut self, nesting: usize) -> Read<Parameter> {
        let (location_of_type, name, value_type) = self.entry(nesting, false)?;
        Ok(Parameter { name, value_type, location_of_type })
    }

    fn member(&mut self, nesting: usize) -> Read<Member> {
        let (location_of_type, name, value_type) = self.entry(nesting, true)?;
        Ok(Member { name, value_type, location_of_type })
    }

    fn body(&mut self, nesting: usize) -> Read<FunctionBody> {
        Ok(FunctionBody {
            statements: self.list(|r| r.statement(nesting))?,
            return_value: self.option(|r| r.expression(nesting))?,
            return_value_identifier: self.identifier()?,
        })
    }
}

// Nodes. `nesting` is the node's own.
impl Reader<'_> {
    /// A node's first number: its range, then its nesting.
    fn first(&mut self, end: u32, nesting: usize, word: &'static str) -> Read<u32> {
        let place = self.at;
        let value = self.below(end, word)?;
        if nesting > NESTING {
            return refuse(7, place);
        }
        Ok(value)
    }

    /// `own`: in a constant's or member's own type, through kinds 14 to 19 only.
    fn value_type(&mut self, nesting: usize, own: bool) -> Read<ValueType> {
        let place = self.at;
        let kind = self.first(26, nesting, "Kind")?;
        let within = nesting + 1;
        Ok(match kind {
            0 => ValueType::Void,
            1 => ValueType::Int8,
            2 => ValueType::Int16,
            3 => ValueType::Int32,
            4 => ValueType::Int64,
            5 => ValueType::Int128,
            6 => ValueType::Uint8,
            7 => ValueType::Uint16,
            8 => ValueType::Uint32,
            9 => ValueType::Uint64,
            10 => ValueType::Uint128,
            11 => ValueType::Usize,
            12 => ValueType::Char8,
            13 => ValueType::Bool,
            14 => ValueType::Array {
                element_type: Box::new(self.value_type(within, own)?),
                length: self.number("Length")? as usize,
            },
            15 => ValueType::ArrayWithNamedLength {
                element_type: Box::new(self.value_type(within, own)?),
                named_length: self.identifier()?,
            },
            16 => ValueType::Slice { element_type: Box::new(self.value_type(within, own)?) },
            17 => ValueType::SlicePointer { element_type: Box::new(self.value_type(within, own)?) },
            18 => ValueType::EndlessArray { element_type: Box::new(self.value_type(within, own)?) },
            19 => ValueType::Arraylike { element_type: Box::new(self.value_type(within, own)?) },
            20 => ValueType::Struct { identifier: self.identifier()? },
            21 => ValueType::Word {
                identifier: self.identifier()?,
                size_in_bytes: self.number("Size")? as usize,
            },
            22 => ValueType::UnresolvedStructOrWord { identifier: Some(self.identifier()?) },
            23 if own && self.row_9 => return refuse(9, place),
            23 => ValueType::UnresolvedStructOrWord { identifier: None },
            24 => ValueType::Pointer { deref_type: Box::new(self.value_type(within, false)?) },
            _ => ValueType::View { deref_type: Box::new(self.value_type(within, false)?) },
        })
    }

    fn boxed(&mut self, nesting: usize) -> Read<Box<Expression>> {
        Ok(Box::new(self.expression(nesting)?))
    }

    fn integer(&mut self) -> Read<[u8; 16]> {
        Ok(self.bytes(16, "Integer")?.try_into().unwrap())
    }

    fn expression(&mut self, nesting: usize) -> Read<Expression> {
        let kind = self.first(16, nesting, "Kind")?;
        let within = nesting + 1;
        Ok(match kind {
            0 => {
                let op = self.number("Operator")?;
                Expression::Binary {
                    op: BinaryOp::Add,
                    location: self.place()?.with(op),
                    location_of_op: self.place()?,
                    left: self.boxed(within)?,
                    right: self.boxed(within)?,
                }
            }
            1 => {
                let op = self.number("Operator")?;
                Expression::Unary {
                    op: UnaryOp::Negative,
                    location: self.place()?.with(op),
                    location_of_op: self.place()?,
                    expression: self.boxed(within)?,
                }
            }
            2 => Expression::BooleanLiteral {
                value: self.below(2, "Boolean")? == 1,
                location: self.place()?,
            },
            3 => Expression::SignedIntegerLiteral {
                value: i128::from_le_bytes(self.integer()?),
                location: self.place()?,
                value_type: self.carried(within)?,
            },
            4 => Expression::BitIntegerLiteral {
                value: u128::from_le_bytes(self.integer()?),
                location: self.place()?,
                value_type: self.carried(within)?,
            },
            5 => {
                let length = self.number("Length")? as usize;
                Expression::StringLiteral {
                    bytes: self.bytes(length, "Bytes")?.to_vec(),
                    location: self.place()?,
                }
            }
            6 => {
                let location = self.place()?;
                let element_type = self.carried(within)?;
                let elements = self.list(|r| r.expression(within))?;
                let resolution_id = self.number("Id")?;
                let array = Array { elements, location, resolution_id };
                Expression::ArrayLiteral { array, element_type }
            }
            7 => Expression::Structural {
                location: self.place()?,
                members: self.list(|r| {
                    Ok(MemberExpression {
                        name: r.maybe(|r| r.identifier())?,
                        offset: r.one_more("Offset")?.map(|n| n as usize),
                        expression: r.expression(within)?,
                    })
                })?,
                structural_type: self.maybe(|r| r.value_type(within, false))?,
            },
            8 => Expression::Parenthesized { location: self.place()?, inner: self.boxed(within)? },
            9 => Expression::Deref {
                deref_type: self.carried(within)?,
                reference: self.reference(within)?,
            },
            10 => Expression::BitCast {
                location: self.place()?,
                location_of_keyword: self.place()?,
                coerced_type: self.carried(within)?,
                expression: self.boxed(within)?,
            },
            11 => Expression::TypeCast {
                location: self.place()?,
                location_of_type: self.place()?,
                coerced_type: self.value_type(within, false)?,
                expression: self.boxed(within)?,
            },
            12 => Expression::LengthOfArray {
                location: self.place()?,
                reference: self.reference(within)?,
            },
            13 => Expression::SizeOf {
                location: self.place()?,
                queried_type: self.value_type(within, false)?,
            },
            14 => {
                let (name, builtin) = self.callee()?;
                Expression::FunctionCall {
                    name,
                    builtin,
                    return_type: self.carried(within)?,
                    arguments: self.list(|r| r.expression(within))?,
                }
            }
            _ => Expression::Poison(self.poison()?),
        })
    }

    /// A called name and its builtin; the builtin's number stays with the name.
    fn callee(&mut self) -> Read<(Identifier, Option<Builtin>)> {
        let name = self.identifier()?;
        let number = self.one_more("Builtin")?;
        let location = name.location.with(number.unwrap_or(0));
        Ok((Identifier { location, ..name }, number.map(|_| Builtin::Print)))
    }

    fn reference(&mut self, nesting: usize) -> Read<Reference> {
        let address_depth = self.first(256, nesting, "Address")? as u8;
        Ok(Reference {
            address_depth,
            location: self.place()?,
            location_of_unaddressed: self.place()?,
            base: self.maybe(|r| r.identifier())?,
            steps: self.list(|r| r.step(nesting + 1))?,
        })
    }

    fn step(&mut self, nesting: usize) -> Read<ReferenceStep> {
        Ok(match self.first(2, nesting, "Kind")? {
            0 => ReferenceStep::Element {
                is_endless: match self.below(3, "Endless")? {
                    0 => None,
                    1 => Some(false),
                    _ => Some(true),
                },
                argument: self.boxed(nesting + 1)?,
            },
            _ => ReferenceStep::Member {
                member: self.identifier()?,
                offset: self.one_more("Offset")?.map(|n| n as usize),
            },
        })
    }

    fn statement(&mut self, nesting: usize) -> Read<Statement> {
        let place = self.at;
        let kind = self.first(9, nesting, "Kind")?;
        count_one(&mut self.counts.statements, STATEMENTS, place)?;
        if matches!(kind, 0 | 5) {
            count_one(&mut self.counts.entries, ENTRIES, place)?;
        }
        let within = nesting + 1;
        Ok(match kind {
            0 => Statement::Declaration {
                location: self.place()?,
                value: self.option(|r| r.expression(within))?,
                value_type: self.carried(within)?,
                name: self.identifier()?,
            },
            1 => Statement::Assignment {
                location: self.place()?,
                value: self.expression(within)?,
                reference: self.reference(within)?,
            },
            2 => {
                let (name, builtin) = self.callee()?;
                let arguments = self.list(|r| r.expression(within))?;
                Statement::MethodCall { name, builtin, arguments }
            }
            3 => Statement::Loop { location: self.place()? },
            4 => Statement::Goto { label: self.identifier()?, location: self.place()? },
            5 => Statement::Label { label: self.identifier()?, location: self.place()? },
            6 => {
                let location = self.place()?;
                let op = self.number("Operator")?;
                let condition = Comparison {
                    op: ComparisonOp::Equals,
                    location: self.place()?.with(op),
                    location_of_op: self.place()?,
                    left: self.expression(within)?,
                    right: self.expression(within)?,
                };
                let then_branch = Box::new(self.statement(within)?);
                let else_branch = self.option(|r| {
                    Ok(Else {
                        location_of_else: r.place()?,
                        branch: Box::new(r.statement(within)?),
                    })
                })?;
                Statement::If { condition, then_branch, else_branch, location }
            }
            7 => Statement::Block(Block {
                location: self.place()?,
                statements: self.list(|r| r.statement(within))?,
            }),
            _ => Statement::Poison(self.poison()?),
        })
    }

    fn declaration(&mut self) -> Read<Declaration> {
        let place = self.at;
        let kind = self.first(6, 1, "Kind")?;
        match kind {
            0 | 3 => count_one(&mut self.counts.containers, CONTAINERS, place)?,
            1 | 2 => count_one(&mut self.counts.functions, FUNCTIONS, place)?,
            _ => (),
        }
        let within = 2;
        Ok(match kind {
            0 => Declaration::Constant {
                flags: self.flags()?,
                location_of_declaration: self.place()?,
                location_of_type: self.place()?,
                name: self.identifier()?,
                value: self.expression(within)?,
                value_type: self.maybe(|r| r.value_type(within, true))?,
                depth: None,
            },
            1 => Declaration::Function {
                flags: self.flags()?,
                location_of_declaration: self.place()?,
                location_of_return_type: self.place()?,
                name: self.identifier()?,
                parameters: self.list(|r| r.parameter(within))?,
                body: self.maybe(|r| r.body(within))?,
                return_type: self.maybe(|r| r.value_type(within, false))?,
            },
            2 => Declaration::FunctionHead {
                flags: self.flags()?,
                location_of_declaration: self.place()?,
                location_of_return_type: self.place()?,
                name: self.identifier()?,
                parameters: self.list(|r| r.parameter(within))?,
                return_type: self.maybe(|r| r.value_type(within, false))?,
            },
            3 => Declaration::Structure {
                flags: self.flags()?,
                location_of_declaration: self.place()?,
                name: self.identifier()?,
                members: self.list(|r| r.member(within))?,
                structural_type: self.maybe(|r| r.value_type(within, false))?,
                depth: None,
            },
            4 => {
                let length = self.number("Length")? as usize;
                Declaration::Import {
                    filename: text::from_bytes(self.bytes(length, "Bytes")?),
                    location: self.place()?,
                }
            }
            _ => Declaration::Poison(self.poison()?),
        })
    }
}

// The whole.
impl Reader<'_> {
    fn tree(&mut self) -> Read<Tree> {
        if self.tree.len() > TREE_BYTES {
            return refuse(1, 0);
        }
        self.name_table()?;
        let mut declarations = self.list(|r| r.declaration())?;
        for declaration in &mut declarations {
            self.depth(declaration)?;
        }
        if self.at < self.tree.len() {
            return refuse(10, self.at);
        }
        Ok(Tree { names: std::mem::take(&mut self.names), declarations })
    }

    fn name_table(&mut self) -> Read<()> {
        let place = self.at;
        let count = self.number("Count")?;
        if count as usize > NAMES {
            return refuse(8, place);
        }
        for _ in 0..count {
            let place = self.at;
            let length = self.number("Length")?;
            if length == 0 || length > NAME_BYTES {
                return refuse(6, place);
            }
            let place = self.at;
            let name = self.bytes(length as usize, "Bytes")?;
            if self.names.iter().any(|earlier| earlier == name) {
                return refuse(6, place);
            }
            self.names.push(name.to_vec());
            self.texts.push(text::from_bytes(name));
        }
        Ok(())
    }

    fn depth(&mut self, declaration: &mut Declaration) -> Read<()> {
        let place = self.at;
        let number = self.number("Depth")?;
        match declaration {
            Declaration::Constant { depth, .. } | Declaration::Structure { depth, .. }
                if self.depths == Depths::Answered =>
            {
                *depth = match number {
                    0 => None,
                    1 => Some(Err(Poison::Poisoned)),
                    more => Some(Ok(more - 2)),
                };
                Ok(())
            }
            _ if number == 0 => Ok(()),
            _ => refuse(5, place),
        }
    }
}
