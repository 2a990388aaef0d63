//! The module tree that the original sources expect around them.

pub mod common;
pub mod error;
pub mod lexer;
pub mod scoper;
pub mod value_type;
