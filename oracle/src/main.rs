//! An oracle for the scoping library: the original Rust, run unchanged.

mod answers;
mod beside;
mod bodies;
mod cases;
mod compare;
mod edges;
mod generate;
mod keeping;
mod lending;
#[cfg(feature = "library")]
mod library;
mod passes;
#[cfg(feature = "library")]
mod perf;
mod pruning;
mod read;
mod readers;
mod refusal;
mod selftest;
mod shrink;
mod skips;
mod standing;
mod text;
#[cfg(feature = "library")]
mod through;
mod vectors;
mod walks;
mod write;

use compare::Comparison;
use generate::{heavy, limits, sheet};
use passes::{scope, List, Room, BENCH};
use read::Depths;
use refusal::Refusal;
use std::io::{Read, Write};

/// Trees are at most 64 levels deep, but a level takes several calls, and
/// builds without optimisation have large frames.
const STACK: usize = 256 << 20;

fn main() {
    let work = std::thread::Builder::new().stack_size(STACK).spawn(run).unwrap();
    std::process::exit(work.join().unwrap_or(101));
}

const USAGE: &str = "\
oracle listing [--walks] [ANSWER LIST WORK] < tree   the bench sheet's listing (also: list, scope)
oracle answer < tree                                 the answered tree
oracle reads [--answered] < tree                     passes, or the refusal by rows 1 and 3 to 10
oracle fields [--answered] < tree                    offset, length, word and value of every field
oracle edges < tree                                  edges handed over, by declaration number
oracle readers DECLARATION MAX < answered-tree       depth, container, name
oracle vectors N SEED [--max BYTES]                  small trees with all their answers
oracle cases N SEED                                  number, place and tree, for replaying the reading
oracle reader-cases N SEED                           tree, declaration, maximum, answer
oracle answer-cases N SEED                           whole answers, for replaying them; bytes
oracle compare [N SEED] [--three]                    the library, called from here, against the original
oracle perf [RUNS]                                   times of both, a table
oracle compare-reads PROGRAM N SEED [--answered]     PROGRAM against reads
oracle compare-listing PROGRAM N SEED [--walks]      PROGRAM against listing
oracle emit [KIND]                                   a tree that has a name, or all the names
oracle selftest [TREES SEED]                         the oracle's checks of itself
";

/// The words of the command line, without what begins with two dashes.
struct Line {
    words: Vec<String>,
    depths: Depths,
    list: List,
    max: usize,
    three: bool,
}

fn line() -> Line {
    let mut line = Line {
        words: vec![],
        depths: Depths::Incoming,
        list: List::Pruning,
        max: 150,
        three: false,
    };
    let mut words = std::env::args().skip(1);
    while let Some(word) = words.next() {
        match word.as_str() {
            "--answered" => line.depths = Depths::Answered,
            "--walks" => line.list = List::Walks,
            "--three" => line.three = true,
            "--max" => line.max = number(&words.next().unwrap_or_default()),
            _ => line.words.push(word),
        }
    }
    line
}

fn run() -> i32 {
    let Line { words, depths, list, max, three } = line();
    let words: Vec<&str> = words.iter().map(|word| word.as_str()).collect();
    let out: Vec<u8> = match words[..] {
        ["listing" | "list" | "scope"] => listing(scope(&input(), BENCH, list)).into(),
        ["listing" | "list" | "scope", answer, lent, work] => {
            let room = Room { answer: number(answer), list: number(lent), work: number(work) };
            listing(scope(&input(), room, list)).into()
        }
        ["answer"] => scope(&input(), BENCH, list).map_or(Vec::new(), |scoped| scoped.answer),
        ["reads"] => reads(&input(), depths).into(),
        ["fields"] => fields(&input(), depths).into(),
        ["edges"] => edges_line(&input()).into(),
        ["readers", declaration, max] => {
            let asked = readers::ask(&input(), number(declaration), number(max));
            format!("{}\n", readers::told(asked)).into()
        }
        ["vectors", count, seed] => vectors::vectors(number(count), number(seed), max).into(),
        ["cases", count, seed] => cases::cases(number(count), number(seed)).into(),
        ["reader-cases", count, seed] => readers::cases(number(count), number(seed)).into(),
        ["answer-cases", count, seed] => answers::answer_cases(number(count), number(seed)),
        ["compare"] => return through_library(Asked::Compare(20_000, 1, three)),
        ["compare", count, seed] => {
            return through_library(Asked::Compare(number(count), number(seed), three))
        }
        ["perf"] => return through_library(Asked::Perf(21)),
        ["perf", runs] => return through_library(Asked::Perf(number(runs))),
        ["compare-reads", program, count, seed] => {
            let wanted = |tree: &[u8]| reads(tree, depths);
            let same = Comparison { program, wanted: &wanted }.run(number(count), number(seed));
            return !same as i32;
        }
        ["compare-listing", program, count, seed] => {
            let wanted = |tree: &[u8]| listing(scope(tree, BENCH, list));
            let same = Comparison { program, wanted: &wanted }.run(number(count), number(seed));
            return !same as i32;
        }
        ["emit"] => named().iter().map(|(name, _)| format!("{name}\n")).collect::<String>().into(),
        ["emit", wanted] => match named().into_iter().find(|(name, _)| name == wanted) {
            Some((_, tree)) => tree,
            None => {
                eprintln!("no such tree; `oracle emit` lists them");
                return 2;
            }
        },
        ["selftest"] => selftest::selftest(100_000, 1).into(),
        ["selftest", trees, seed] => selftest::selftest(number(trees), number(seed)).into(),
        _ => {
            eprint!("{USAGE}");
            return 2;
        }
    };
    // Whoever reads may stop reading.
    let _ = std::io::stdout().write_all(&out);
    0
}

/// What needs the library.
#[cfg_attr(not(feature = "library"), allow(dead_code))]
enum Asked {
    Compare(usize, u64, bool),
    Perf(usize),
}

#[cfg(feature = "library")]
fn through_library(asked: Asked) -> i32 {
    match asked {
        Asked::Compare(count, seed, three) => !through::compare(count, seed, three) as i32,
        Asked::Perf(runs) => {
            print!("{}", perf::perf(runs));
            0
        }
    }
}

#[cfg(not(feature = "library"))]
fn through_library(_: Asked) -> i32 {
    eprintln!("built without the library. In crates/hurdlebraid: rt lib");
    eprintln!("Then here: cargo run --release --features library -- compare");
    eprintln!("       or: cargo run --profile perf --features library -- perf");
    2
}

fn input() -> Vec<u8> {
    let mut bytes = Vec::new();
    std::io::stdin().read_to_end(&mut bytes).unwrap();
    bytes
}

fn number<N: std::str::FromStr>(word: &str) -> N {
    word.parse().unwrap_or_else(|_| panic!("{word:?} should be a number"))
}

/// The trees that have a name.
fn named() -> Vec<(String, Vec<u8>)> {
    let proved = sheet::proved().into_iter().enumerate();
    let proved = proved.map(|(k, tree)| (format!("p{}", k + 1), tree));
    let sheet = ("sheet".to_string(), sheet::hex(sheet::BENCH_SHEET));
    let limits = limits::all().into_iter().map(|named| (named.name, named.tree));
    let heavy = heavy::all().into_iter().map(|(name, tree)| (name.to_string(), tree));
    std::iter::once(sheet).chain(proved).chain(limits).chain(heavy).collect()
}

fn listing(scoped: Result<passes::Scoped, Refusal>) -> String {
    let scoped = match scoped {
        Ok(scoped) => scoped,
        Err(refusal) => return format!("{refusal}\n"),
    };
    let mut out = format!("tree {} skipped {}\n", scoped.answer.len(), scoped.list.len());
    for (use_, declaration) in scoped.list {
        out += &format!("skip {use_} {declaration}\n");
    }
    for (declaration, depth) in scoped.depths.into_iter().enumerate() {
        out += &format!("depth {declaration} {}\n", vectors::depth_word(depth));
    }
    out
}

fn reads(tree: &[u8], depths: Depths) -> String {
    match read::read(tree, depths) {
        Ok(_) => "passes\n".to_string(),
        Err(refusal) => format!("{refusal}\n"),
    }
}

fn fields(tree: &[u8], depths: Depths) -> String {
    let (fields, refusal) = read::fields(tree, depths);
    let mut out = String::new();
    for field in fields {
        out += &format!("{} {} {} {}\n", field.offset, field.length, field.word, field.value);
    }
    if let Some(refusal) = refusal {
        out += &format!("{refusal}\n");
    }
    out
}

fn edges_line(tree: &[u8]) -> String {
    match read::read(tree, Depths::Incoming) {
        Ok(tree) => format!("{:?}\n", edges::edges(&tree)),
        Err(refusal) => format!("{refusal}\n"),
    }
}
