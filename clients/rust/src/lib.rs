//! The scoper of Penne scripts, for Rust: safe calls over libhurdlebraid.a.

use raw::{hurdlebraid_analyze, hurdlebraid_container_depth, hurdlebraid_structure_name};
use std::fmt;

/// No less work memory will do, in words.
pub const WORK_WORDS: usize = 16_384;
/// No list needs more, in words.
pub const LIST_WORDS: usize = 16_384;

/// Why there is no answer: one of the refusals 1 to 13, and the first byte of
/// the field at fault, 0 where no field is.
#[derive(Debug, Clone, Copy, PartialEq, Eq)]
pub struct Refusal {
    pub number: u32,
    pub place: usize,
}

impl fmt::Display for Refusal {
    fn fmt(&self, f: &mut fmt::Formatter) -> fmt::Result {
        write!(f, "refused {} at {}", self.number, self.place)
    }
}

impl std::error::Error for Refusal {}

/// An answered tree, and the uses that a goto may lead to past their
/// declaration: offset of the use, offset of the declaration, both in the tree
/// that was asked about.
#[derive(Debug, Clone, PartialEq, Eq)]
pub struct Scoped {
    pub tree: Vec<u8>,
    pub skipped: Vec<(u32, u32)>,
}

/// Scopes a tree in memory of its own: never refuses by 2, 11 or 12.
pub fn analyze(tree: &[u8]) -> Result<Scoped, Refusal> {
    let (mut list, mut work) = (vec![0; LIST_WORDS], vec![0; WORK_WORDS]);
    let mut answer = vec![0; tree.len() + tree.len() / 4];
    loop {
        match analyze_into(tree, &mut answer, &mut list, &mut work) {
            // Answers are seldom much longer than their trees.
            Err(Refusal { number: 11, .. }) => answer.resize(2 * answer.len() + 64, 0),
            Err(refusal) => return Err(refusal),
            Ok((length, records)) => {
                answer.truncate(length);
                let skipped = list[..2 * records].chunks(2).map(|two| (two[0], two[1])).collect();
                return Ok(Scoped { tree: answer, skipped });
            }
        }
    }
}

/// Scopes a tree in lent memory, which may hold anything before. Gives the
/// answer's length and the number of records, two words each, at the start of
/// the list. All that was lent is zero behind them; after a refusal all of it.
pub fn analyze_into(
    tree: &[u8],
    answer: &mut [u8],
    list: &mut [u32],
    work: &mut [u32],
) -> Result<(usize, usize), Refusal> {
    let mut told = [0; 4];
    // Safety: five slices, each with its own length; what is written to is
    // borrowed for this call alone, so nothing overlaps.
    unsafe {
        hurdlebraid_analyze(
            tree.as_ptr(),
            tree.len(),
            answer.as_mut_ptr(),
            answer.len(),
            list.as_mut_ptr(),
            list.len(),
            work.as_mut_ptr(),
            work.len(),
            told.as_mut_ptr(),
            told.len(),
        )
    }
    values(told).map(|(length, records)| (length as usize, records as usize))
}

/// Of an answered tree: a declaration's depth, or `max` where it has none.
pub fn get_container_depth(tree: &[u8], declaration: u32, max: u32) -> Result<u32, Refusal> {
    Ok(container(tree, declaration, max)?.0)
}

/// Of an answered tree: whether a declaration is a constant or structure that
/// has a depth.
pub fn is_container(tree: &[u8], declaration: u32) -> Result<bool, Refusal> {
    Ok(container(tree, declaration, u32::MAX)?.1)
}

fn container(tree: &[u8], declaration: u32, max: u32) -> Result<(u32, bool), Refusal> {
    let mut told = [0; 4];
    // Safety: two slices with their lengths.
    unsafe {
        hurdlebraid_container_depth(
            tree.as_ptr(),
            tree.len(),
            declaration,
            max,
            told.as_mut_ptr(),
            told.len(),
        )
    }
    values(told).map(|(depth, is_container)| (depth as u32, is_container == 1))
}

/// Of an answered tree: a structure's name, empty for another declaration.
pub fn get_structure_name(tree: &[u8], declaration: u32) -> Result<&[u8], Refusal> {
    let mut told = [0; 4];
    // Safety: two slices with their lengths.
    unsafe {
        hurdlebraid_structure_name(
            tree.as_ptr(),
            tree.len(),
            declaration,
            told.as_mut_ptr(),
            told.len(),
        )
    }
    values(told).map(|(start, length)| &tree[start as usize..][..length as usize])
}

/// A refusal's number and place, then two values.
fn values([number, place, one, other]: [u64; 4]) -> Result<(u64, u64), Refusal> {
    match number {
        0 => Ok((one, other)),
        _ => Err(Refusal { number: number as u32, place: place as usize }),
    }
}

/// The calls as C sees them. A slice is two arguments: where it is, and how many
/// elements it has.
pub mod raw {
    extern "C" {
        pub fn hurdlebraid_analyze(
            tree: *const u8,
            tree_bytes: usize,
            answer: *mut u8,
            answer_bytes: usize,
            list: *mut u32,
            list_words: usize,
            work: *mut u32,
            work_words: usize,
            outcome: *mut u64,
            outcome_words: usize,
        );
        pub fn hurdlebraid_container_depth(
            tree: *const u8,
            tree_bytes: usize,
            declaration: u32,
            max: u32,
            outcome: *mut u64,
            outcome_words: usize,
        );
        pub fn hurdlebraid_structure_name(
            tree: *const u8,
            tree_bytes: usize,
            declaration: u32,
            outcome: *mut u64,
            outcome_words: usize,
        );
    }
}
