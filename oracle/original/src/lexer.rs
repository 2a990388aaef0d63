//! Stand-in for the lexer: only what the six sources name.

use std::ops::Range;

/// Where something stands. The passes clone and move it and never look inside,
/// so what it carries cannot change a result; comparing or sorting by it ends
/// the run. `source_filename` and `span` are named by the error reports, which
/// are compiled but never asked for.
#[derive(Debug, Clone)]
pub struct Location {
    pub source_filename: &'static str,
    /// Begins at the offset, in the tree, of what is located.
    pub span: Range<usize>,
    /// The tree's place number.
    pub place: u32,
    /// An opaque number that belongs to the same node (operator, builtin),
    /// where the original has an enum too small to hold it.
    pub opaque: u32,
}

impl Location {
    pub fn at(offset: usize, place: u32) -> Location {
        Location { source_filename: "", span: offset..offset, place, opaque: 0 }
    }

    pub fn with(self, opaque: u32) -> Location {
        Location { opaque, ..self }
    }

    pub fn offset(&self) -> usize {
        self.span.start
    }

    pub fn comparison_key(&self) -> usize {
        panic!("no pass sorts errors")
    }
}

impl PartialEq for Location {
    fn eq(&self, _: &Location) -> bool {
        panic!("no pass compares places")
    }
}

#[derive(Debug, Clone)]
pub enum Error {
    UnexpectedZeroByteFile,
    TooManySourceBytes,
    TooManyTokens,
    UnexpectedCharacter,
    InvalidIntegerLength,
    InvalidIntegerTypeSuffix,
    MissingClosingQuote,
    UnexpectedTrailingBackslash,
    InvalidEscapeSequence,
    InvalidCharLiteral,
}
