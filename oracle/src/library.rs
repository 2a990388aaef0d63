//! The library, called as a C program calls it: a slice is a pointer and a
//! length. Whatever is lent stands inside larger memory full of garbage, so
//! that afterwards one can see what was written, and whether anything was
//! written beside it.

use crate::generate::dice::Dice;
use crate::passes::Room;
use hurdlebraid::raw::{
    hurdlebraid_analyze, hurdlebraid_container_depth, hurdlebraid_structure_name,
};

/// The library's calls run in a thread with this much stack.
pub const STACK: usize = 256 << 10;

/// Runs it on the small stack.
pub fn in_small_stack<R: Send>(calls: impl FnOnce() -> R + Send) -> R {
    std::thread::scope(|scope| {
        let thread = std::thread::Builder::new().stack_size(STACK);
        thread.spawn_scoped(scope, calls).unwrap().join().unwrap()
    })
}

pub trait Word: Copy + Eq {
    const ZERO: Self;
    fn of(noise: u64) -> Self;
}

impl Word for u8 {
    const ZERO: u8 = 0;
    fn of(noise: u64) -> u8 {
        noise as u8
    }
}

impl Word for u32 {
    const ZERO: u32 = 0;
    fn of(noise: u64) -> u32 {
        noise as u32
    }
}

impl Word for u64 {
    const ZERO: u64 = 0;
    fn of(noise: u64) -> u64 {
        noise
    }
}

/// Elements watched on each side of what is lent.
const MARGIN: usize = 64;
/// Garbage is taken from one of so many places.
const SHIFTS: usize = 1_000;

/// Memory that is lent again and again.
pub struct Lent<T> {
    all: Vec<T>,
    /// Noise; numbers that could be rows, offsets or counts; all bits set.
    garbage: [Vec<T>; 3],
    zeros: Vec<T>,
    which: usize,
    shift: usize,
    from: usize,
    length: usize,
}

impl<T: Word> Lent<T> {
    fn new() -> Lent<T> {
        let (all, zeros, garbage) = (vec![], vec![], Default::default());
        Lent { all, garbage, zeros, which: 0, shift: 0, from: 0, length: 0 }
    }

    /// Room for so many, with garbage in it and around it.
    fn lend(&mut self, length: usize, dice: &mut Dice) -> &mut [T] {
        self.which = dice.below(3);
        self.shift = dice.below(SHIFTS);
        // Not always aligned alike.
        self.from = MARGIN + dice.below(8);
        self.length = length;
        let total = self.from + length + MARGIN;
        if self.all.len() < total {
            self.grow(total);
        }
        let garbage = &self.garbage[self.which][self.shift..][..total];
        self.all[..total].copy_from_slice(garbage);
        &mut self.all[self.from..][..length]
    }

    fn grow(&mut self, total: usize) {
        let mut dice = Dice::new(total as u64);
        let most = total + SHIFTS;
        self.all = vec![T::ZERO; total];
        self.zeros = vec![T::ZERO; total];
        self.garbage[0] = (0..most).map(|_| T::of(dice.next())).collect();
        self.garbage[1] = (0..most).map(|_| T::of(dice.next() % 200)).collect();
        self.garbage[2] = vec![T::of(u64::MAX); most];
    }

    /// What is in it now.
    pub fn now(&self) -> &[T] {
        &self.all[self.from..][..self.length]
    }

    /// Whether it holds these and then zeros, and its margins are as they were.
    pub fn holds(&self, wanted: &[T]) -> Result<(), String> {
        let now = self.now();
        if now[..wanted.len()] != *wanted {
            let at = now.iter().zip(wanted).position(|(now, wanted)| now != wanted).unwrap();
            return Err(format!("differs at {at}"));
        }
        let rest = &now[wanted.len()..];
        if *rest != self.zeros[..rest.len()] {
            let at = rest.iter().position(|now| *now != T::ZERO).unwrap();
            return Err(format!("not zero at {}", wanted.len() + at));
        }
        let garbage = &self.garbage[self.which][self.shift..];
        let behind = self.from + self.length;
        if self.all[..self.from] != garbage[..self.from] {
            return Err("written to in front of it".to_string());
        }
        if self.all[behind..][..MARGIN] != garbage[behind..][..MARGIN] {
            return Err("written to behind it".to_string());
        }
        Ok(())
    }
}

/// All that the calls are lent.
pub struct Library {
    pub tree: Lent<u8>,
    pub answer: Lent<u8>,
    pub list: Lent<u32>,
    pub work: Lent<u32>,
    pub outcome: Lent<u64>,
}

impl Library {
    pub fn new() -> Library {
        let (tree, answer) = (Lent::new(), Lent::new());
        let (list, work, outcome) = (Lent::new(), Lent::new(), Lent::new());
        Library { tree, answer, list, work, outcome }
    }

    pub fn analyze(&mut self, tree: &[u8], room: Room, told: usize, dice: &mut Dice) {
        let lent = self.tree.lend(tree.len(), dice);
        lent.copy_from_slice(tree);
        let answer = self.answer.lend(room.answer, dice);
        let list = self.list.lend(room.list, dice);
        let work = self.work.lend(room.work, dice);
        let outcome = self.outcome.lend(told, dice);
        analyze(lent, answer, list, work, outcome);
    }

    pub fn container_depth(
        &mut self,
        tree: &[u8],
        declaration: u32,
        max: u32,
        told: usize,
        dice: &mut Dice,
    ) {
        let lent = self.tree.lend(tree.len(), dice);
        lent.copy_from_slice(tree);
        let outcome = self.outcome.lend(told, dice);
        // Safety: both are slices of this program, of these lengths.
        unsafe {
            hurdlebraid_container_depth(
                lent.as_ptr(),
                lent.len(),
                declaration,
                max,
                outcome.as_mut_ptr(),
                outcome.len(),
            )
        }
    }

    pub fn structure_name(&mut self, tree: &[u8], declaration: u32, told: usize, dice: &mut Dice) {
        let lent = self.tree.lend(tree.len(), dice);
        lent.copy_from_slice(tree);
        let outcome = self.outcome.lend(told, dice);
        // Safety: as above.
        unsafe {
            hurdlebraid_structure_name(
                lent.as_ptr(),
                lent.len(),
                declaration,
                outcome.as_mut_ptr(),
                outcome.len(),
            )
        }
    }
}

/// The call itself, on any memory.
pub fn analyze(
    tree: &[u8],
    answer: &mut [u8],
    list: &mut [u32],
    work: &mut [u32],
    outcome: &mut [u64],
) {
    // Safety: five slices of this program, each with its length, none of them
    // overlapping.
    unsafe {
        hurdlebraid_analyze(
            tree.as_ptr(),
            tree.len(),
            answer.as_mut_ptr(),
            answer.len(),
            list.as_mut_ptr(),
            list.len(),
            work.as_mut_ptr(),
            work.len(),
            outcome.as_mut_ptr(),
            outcome.len(),
        )
    }
}
