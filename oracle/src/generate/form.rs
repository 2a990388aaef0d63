//! Parts of the tree form as bytes, for trees put together by hand.
//! Says nothing about what is allowed: bad trees are made of these too.

use crate::write;

pub type Bytes = Vec<u8>;

pub fn num(value: u32) -> Bytes {
    let mut bytes = Bytes::new();
    write::number(&mut bytes, value);
    bytes
}

/// Parts one after the other: numbers, or bytes already made.
#[macro_export]
macro_rules! cat {
    ($($part:expr),* $(,)?) => {{
        #[allow(unused_mut)]
        let mut bytes: Vec<u8> = Vec::new();
        $( $crate::generate::form::Part::add(&$part, &mut bytes); )*
        bytes
    }};
}

pub trait Part {
    fn add(&self, to: &mut Bytes);
}

impl Part for u32 {
    fn add(&self, to: &mut Bytes) {
        write::number(to, *self);
    }
}

impl Part for Bytes {
    fn add(&self, to: &mut Bytes) {
        to.extend(self);
    }
}

impl Part for &[u8] {
    fn add(&self, to: &mut Bytes) {
        to.extend(*self);
    }
}

pub fn list(items: &[Bytes]) -> Bytes {
    cat!(items.len() as u32, items.concat())
}

pub fn sized(bytes: &[u8]) -> Bytes {
    cat!(bytes.len() as u32, bytes)
}

pub fn ok(good: Bytes) -> Bytes {
    cat!(0, good)
}

pub fn poisoned() -> Bytes {
    cat!(1, 0)
}

pub fn ident(name: u32, place: u32) -> Bytes {
    cat!(name, place, 0, 0)
}

pub fn names(names: &[&[u8]]) -> Bytes {
    list(&names.iter().map(|name| sized(name)).collect::<Vec<_>>())
}

pub fn tree(names: Bytes, declarations: &[Bytes]) -> Bytes {
    cat!(names, list(declarations), vec![0u8; declarations.len()])
}

// Expressions and references.

pub fn boolean() -> Bytes {
    cat!(2, 1, 1)
}

pub fn reference(base: Bytes) -> Bytes {
    cat!(0, 1, 1, base, 0)
}

pub fn deref(base: Bytes) -> Bytes {
    cat!(9, 0, reference(base))
}

pub fn parens(count: usize, within: Bytes) -> Bytes {
    cat!([8, 1].repeat(count), within)
}

// Statements.

pub fn declare(name: Bytes) -> Bytes {
    cat!(0, 1, 0, 0, name)
}

pub fn assign(base: Bytes) -> Bytes {
    cat!(1, 1, boolean(), reference(ok(base)))
}

pub fn loops() -> Bytes {
    cat!(3, 1)
}

pub fn goto(label: Bytes, place: u32) -> Bytes {
    cat!(4, label, place)
}

pub fn label(label: Bytes, place: u32) -> Bytes {
    cat!(5, label, place)
}

pub fn if_else(then: Bytes, other: Option<Bytes>) -> Bytes {
    let other = other.map_or(cat!(0), |other| cat!(1, 1, other));
    cat!(6, 1, 0, 1, 1, boolean(), boolean(), then, other)
}

pub fn block(statements: &[Bytes]) -> Bytes {
    cat!(7, 1, list(statements))
}

// Declarations.

pub fn constant(name: Bytes, value: Bytes, own: Bytes) -> Bytes {
    cat!(0, 0, 1, 1, name, value, own)
}

pub fn body(statements: &[Bytes]) -> Bytes {
    ok(cat!(list(statements), 0, ident(0, 1)))
}

pub fn function(name: Bytes, parameters: &[Bytes], body: Bytes) -> Bytes {
    cat!(1, 0, 1, 1, name, list(parameters), body, ok(num(0)))
}

pub fn head(name: Bytes, parameters: &[Bytes]) -> Bytes {
    cat!(2, 0, 1, 1, name, list(parameters), ok(num(0)))
}

pub fn entry(name: Bytes, own: Bytes) -> Bytes {
    cat!(1, name, own)
}

pub fn structure(name: Bytes, members: &[Bytes]) -> Bytes {
    cat!(3, 0, 1, name, list(members), ok(num(23)))
}
