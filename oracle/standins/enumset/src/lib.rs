//! Stand-in for enumset: a set of an enum's values as bits, the first value
//! lowest. The passes use one operation of it, `set | value`.

pub use enumset_derive::EnumSetType;
use std::marker::PhantomData;
use std::ops::BitOr;

pub trait EnumSetType: Copy {
    fn bit(self) -> u32;
}

#[derive(Debug, Clone, Copy, PartialEq, Eq)]
pub struct EnumSet<T> {
    bits: u32,
    of: PhantomData<T>,
}

impl<T: EnumSetType> EnumSet<T> {
    pub fn from_bits(bits: u32) -> Self {
        EnumSet { bits, of: PhantomData }
    }

    pub fn bits(self) -> u32 {
        self.bits
    }
}

impl<T: EnumSetType> BitOr<T> for EnumSet<T> {
    type Output = Self;

    fn bitor(self, value: T) -> Self {
        Self::from_bits(self.bits | value.bit())
    }
}
