//! How long the original and the library take on the same trees, in one run.
//!
//! Of the original its two passes are measured, on a tree that already stands
//! in memory as it wants it: no reading, no writing, no skip list. Of the
//! library the whole call is: reading and checking the bytes, both passes, the
//! answer, the list, and clearing all that was lent.

use crate::generate::heavy;
use crate::library::{analyze, in_small_stack};
use crate::passes::{whole, List, BENCH};
use crate::read::{read, Depths};
use penne::alpha::scoper;
use std::time::{Duration, Instant};

pub fn perf(runs: usize) -> String {
    let mut out = String::new();
    if cfg!(debug_assertions) {
        out += "The original is built with checks here: `cargo run --profile perf` leaves them out.\n\n";
    }
    out += &format!(
        "Medians of {runs} runs each, in milliseconds; in brackets the slowest run.\n\n\
         | tree | bytes | answer | records | original | hurdlebraid | times as fast |\n\
         |---|--:|--:|--:|--:|--:|--:|\n"
    );
    for (name, tree) in heavy::all() {
        out += &row(name, &tree, runs);
    }
    out
}

fn row(name: &str, tree: &[u8], runs: usize) -> String {
    let input = read(tree, Depths::Incoming).expect("a tree that passes").declarations;
    let wanted = whole(tree, List::Pruning).unwrap();
    // The sheet's room, but for an answer that does not fit there.
    let mut answer = vec![0u8; BENCH.answer.max(wanted.answer.len())];
    let (mut list, mut work) = (vec![0u32; BENCH.list], vec![0u32; BENCH.work]);
    let (mut original, mut ours) = (Vec::new(), Vec::new());
    for _ in 0..runs {
        let taken = input.clone();
        let began = Instant::now();
        let answered = scoper::analyze(taken);
        original.push(began.elapsed());
        drop(answered);

        answer.fill(0xAA);
        list.fill(0xAAAA_AAAA);
        work.fill(0xAAAA_AAAA);
        let mut outcome = [0; 4];
        let took = in_small_stack(|| {
            let began = Instant::now();
            analyze(tree, &mut answer, &mut list, &mut work, &mut outcome);
            began.elapsed()
        });
        ours.push(took);
        let lengths = [wanted.answer.len() as u64, wanted.list.len() as u64];
        assert_eq!(outcome, [0, 0, lengths[0], lengths[1]], "{name}");
    }
    let (original, ours) = (Times::of(original), Times::of(ours));
    format!(
        "| {name} | {} | {} | {} | {} | {} | {:.1} |\n",
        tree.len(),
        wanted.answer.len(),
        wanted.list.len(),
        original,
        ours,
        original.median.as_secs_f64() / ours.median.as_secs_f64()
    )
}

struct Times {
    median: Duration,
    slowest: Duration,
}

impl Times {
    fn of(mut all: Vec<Duration>) -> Times {
        all.sort();
        Times { median: all[all.len() / 2], slowest: all[all.len() - 1] }
    }
}

impl std::fmt::Display for Times {
    fn fmt(&self, f: &mut std::fmt::Formatter) -> std::fmt::Result {
        let ms = |time: Duration| time.as_secs_f64() * 1e3;
        write!(f, "{:.3} ({:.3})", ms(self.median), ms(self.slowest))
    }
}
