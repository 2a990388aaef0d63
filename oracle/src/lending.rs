//! How much memory a call is lent, seen from what it needs: so that a tree can
//! be made smaller and still be lent one byte too few.

use crate::generate::dice::Dice;
use crate::passes::{Room, Scoped, BENCH};
use crate::refusal::{Refusal, WORK_WORDS};

#[derive(Clone, Copy, Debug)]
pub enum Size {
    Nothing,
    /// One too few.
    Less,
    Need,
    More(usize),
    /// The bench sheet's.
    Sheet,
}

use Size::*;

impl Size {
    fn of(self, need: usize, sheet: usize) -> usize {
        match self {
            Nothing => 0,
            Less => need.saturating_sub(1),
            Need => need,
            More(more) => need + more,
            Sheet => sheet,
        }
    }

    fn any(dice: &mut Dice, weights: &[usize; 5]) -> Size {
        match dice.weighted(weights) {
            0 => Nothing,
            1 => Less,
            2 => Need,
            // Now and then an answer of more bytes than a tree may have.
            3 => More(dice.pick(&[1, 2, 3, 40, 300, 5_000, 70_000])),
            _ => Sheet,
        }
    }
}

#[derive(Clone, Copy, Debug)]
#[cfg_attr(not(feature = "library"), allow(dead_code))]
pub struct Lending {
    pub answer: Size,
    pub list: Size,
    pub work: Size,
    /// Words of outcome.
    pub told: usize,
    /// Chooses the garbage and where in it the memory lies.
    pub garbage: u64,
}

/// All that the call has to tell.
pub const TOLD: usize = 4;

impl Lending {
    pub fn sheet(garbage: u64) -> Lending {
        Lending { answer: Sheet, list: Sheet, work: Sheet, told: TOLD, garbage }
    }

    pub fn any(dice: &mut Dice) -> Lending {
        Lending {
            answer: Size::any(dice, &[1, 3, 6, 4, 2]),
            list: Size::any(dice, &[1, 3, 6, 3, 2]),
            // Mostly enough, or nothing else is seen.
            work: Size::any(dice, &[1, 1, 30, 6, 0]),
            told: dice.pick(&[0, 1, 2, 3, 4, 4, 4, 4, 5, 9]),
            garbage: dice.next(),
        }
    }

    pub fn room(&self, whole: &Result<Scoped, Refusal>) -> Room {
        let (answer, list) = match whole {
            Ok(scoped) => (scoped.answer.len(), 2 * scoped.list.len()),
            Err(_) => (0, 0),
        };
        Room {
            answer: self.answer.of(answer, BENCH.answer),
            list: self.list.of(list, BENCH.list),
            work: self.work.of(WORK_WORDS, BENCH.work),
        }
    }
}

/// For trees of which there are few: every way that matters.
pub fn every(dice: &mut Dice) -> Vec<Lending> {
    let rooms = [
        (Sheet, Sheet, Sheet, 4),
        (Need, Need, Need, 4),
        (Less, Need, Need, 4),
        (Need, Less, Need, 4),
        (Less, Less, Need, 4),
        (Need, Need, Less, 4),
        (Less, Less, Less, 4),
        (Nothing, Need, Need, 4),
        (Need, Nothing, Need, 4),
        (Nothing, Nothing, Need, 4),
        (Sheet, Sheet, Nothing, 4),
        (Nothing, Nothing, Nothing, 0),
        (More(1), More(1), More(1), 5),
        (More(70_000), More(20_000), More(20_000), 9),
        (Need, Need, Need, 0),
        (Need, Need, Need, 1),
        (Need, Need, Need, 2),
        (Need, Need, Need, 3),
        (Need, Less, Need, 1),
    ];
    let lending =
        |(answer, list, work, told)| Lending { answer, list, work, told, garbage: dice.next() };
    rooms.into_iter().map(lending).collect()
}
