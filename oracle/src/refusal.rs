//! What a refused tree gets, and the limits behind it.

use std::fmt;

#[derive(Debug, Clone, Copy, PartialEq, Eq)]
pub struct Refusal {
    pub number: u32,
    pub place: usize,
}

impl fmt::Display for Refusal {
    fn fmt(&self, f: &mut fmt::Formatter) -> fmt::Result {
        write!(f, "refused {} at {}", self.number, self.place)
    }
}

pub fn refuse<T>(number: u32, place: usize) -> Result<T, Refusal> {
    Err(Refusal { number, place })
}

// Row 1, row 2, row 6, row 7.
pub const TREE_BYTES: usize = 65_535;
pub const WORK_WORDS: usize = 16_384;
pub const NAME_BYTES: u32 = 64;
pub const NESTING: usize = 64;

// Row 8. Entries are parameters, structure members, declaration statements
// and labels together.
pub const NAMES: usize = 1_024;
pub const CONTAINERS: usize = 128;
pub const FUNCTIONS: usize = 256;
pub const ENTRIES: usize = 1_024;
pub const STATEMENTS: usize = 2_048;
