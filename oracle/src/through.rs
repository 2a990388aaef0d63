//! The library against the original, through the C interface: every byte and
//! word of all that was lent, whatever was in it before.

use crate::generate::dice::Dice;
use crate::generate::form::Bytes;
use crate::generate::{any, crowded, damage::damage, heavy, limits, sheet};
use crate::lending::{every, Lending, TOLD};
use crate::library::{self, in_small_stack, Library};
use crate::passes::{whole, within, List, Scoped, BENCH};
use crate::read::{read, Depths};
use crate::readers::{self, Row};
use crate::refusal::Refusal;
use crate::shrink::shrink;
use crate::vectors::hex;
use std::collections::BTreeMap;
use std::panic::{catch_unwind, AssertUnwindSafe};
use std::sync::Arc;
use std::time::Instant;

/// Lines printed about differences, how many of them are made small, and how
/// often it is tried.
const SHOWN: usize = 20;
const SHRUNK: usize = 3;
const SHRINKING: usize = 4_000;
/// Digits of a tree in a line.
const LONGEST: usize = 2_000;
/// Trees for one visit to the small stack.
const BATCH: usize = 200;

/// What is asked of a tree.
#[derive(Clone, Copy, Debug)]
enum Question {
    Analyze(Lending),
    /// Both calls that read an answered tree.
    Read {
        declaration: u32,
        max: u32,
        told: usize,
        garbage: u64,
    },
}

/// What the original says.
enum Wanted {
    Analyzed(Result<Scoped, Refusal>),
    Read(Result<Row, Refusal>),
    /// It says nothing: a finding of its own.
    Panic,
}

impl Question {
    fn wanted(&self, tree: &[u8]) -> Wanted {
        let asked = || match *self {
            Question::Analyze(_) => Wanted::Analyzed(whole(tree, List::Pruning)),
            Question::Read { declaration, max, .. } => {
                Wanted::Read(readers::ask(tree, declaration, max))
            }
        };
        catch_unwind(AssertUnwindSafe(asked)).unwrap_or(Wanted::Panic)
    }

    /// What of the library's answer differs.
    fn difference(&self, library: &mut Library, tree: &[u8], wanted: &Wanted) -> Option<String> {
        match (*self, wanted) {
            (Question::Analyze(lending), Wanted::Analyzed(whole)) => {
                analyzed(library, tree, whole, lending)
            }
            (Question::Read { declaration, max, told, garbage }, Wanted::Read(row)) => {
                let mut dice = Dice::new(garbage);
                library.container_depth(tree, declaration, max, told, &mut dice);
                let depth = row.as_ref().map(|row| (row.depth as u64, row.is_container as u64));
                if let Some(said) = outcome_is(library, tree, told, depth.map_err(|r| *r)) {
                    return Some(format!("container_depth: {said}"));
                }
                library.structure_name(tree, declaration, told, &mut dice);
                let part = |(start, length): (usize, usize)| (start as u64, length as u64);
                let name = row.as_ref().map(|row| row.name.map_or((0, 0), part));
                let said = outcome_is(library, tree, told, name.map_err(|r| *r))?;
                Some(format!("structure_name: {said}"))
            }
            _ => Some("the original panics".to_string()),
        }
    }
}

fn analyzed(
    library: &mut Library,
    tree: &[u8],
    whole: &Result<Scoped, Refusal>,
    lending: Lending,
) -> Option<String> {
    let room = lending.room(whole);
    library.analyze(tree, room, lending.told, &mut Dice::new(lending.garbage));
    let wanted = within(whole.as_ref().map_err(|refusal| *refusal), room);
    let lengths = wanted.map(|scoped| (scoped.answer.len() as u64, scoped.list.len() as u64));
    if let Some(said) = outcome_is(library, tree, lending.told, lengths) {
        return Some(said);
    }
    let (answer, list): (&[u8], Vec<u32>) = match wanted {
        Ok(scoped) => {
            let words = scoped.list.iter().flat_map(|(of, at)| [*of as u32, *at as u32]);
            (&scoped.answer, words.collect())
        }
        Err(_) => (&[], vec![]),
    };
    let parts = [
        ("answer", library.answer.holds(answer)),
        ("list", library.list.holds(&list)),
        ("work", library.work.holds(&[])),
    ];
    parts.into_iter().find_map(|(part, held)| held.err().map(|how| format!("{part} {how}")))
}

/// Refusal, place and two values, as far as they were asked for.
fn outcome_is(
    library: &Library,
    tree: &[u8],
    told: usize,
    values: Result<(u64, u64), Refusal>,
) -> Option<String> {
    let wanted = match values {
        Ok((one, other)) => [0, 0, one, other],
        Err(refusal) => [refusal.number as u64, refusal.place as u64, 0, 0],
    };
    let wanted = &wanted[..told.min(TOLD)];
    if let Err(how) = library.outcome.holds(wanted) {
        let now = library.outcome.now();
        return Some(format!("outcome {how}: {now:?}, wanted {wanted:?} and zeros"));
    }
    library.tree.now().ne(tree).then(|| "the tree was written to".to_string())
}

struct Comparison {
    library: Library,
    dice: Dice,
    cases: usize,
    differ: usize,
    shown: usize,
    by_number: BTreeMap<u32, usize>,
}

struct Task {
    tree: Bytes,
    questions: Vec<(Question, Arc<Wanted>)>,
}

/// All of it; true when nothing differs. The random part is so many trees; all
/// byte strings of three bytes are left out unless asked for.
pub fn compare(count: usize, seed: u64, three: bool) -> bool {
    let mut all = Comparison {
        library: Library::new(),
        dice: Dice::new(seed),
        cases: 0,
        differ: 0,
        shown: 0,
        by_number: BTreeMap::new(),
    };
    let named = named();
    all.part("named trees", &mut named.iter().cloned(), every);
    all.part("changes of P1 to P8", &mut changes(), |dice| vec![Lending::any(dice)]);
    all.part("up to two bytes", &mut up_to_two(), |dice| vec![Lending::any(dice)]);
    if three {
        all.three_bytes();
    }
    let mut dice = Dice::new(seed ^ 1);
    let mut random = (0..count).map(|_| random_tree(&mut dice, &named));
    let ways =
        |dice: &mut Dice| vec![Lending::sheet(dice.next()), Lending::any(dice), Lending::any(dice)];
    all.part("random and damaged trees", &mut random, ways);
    let mut dice = Dice::new(seed ^ 2);
    let mut crowds = (0..count.div_ceil(2_000)).map(|_| crowded::tree(&mut dice));
    all.part("trees near the limits", &mut crowds, every);
    let mut dice = Dice::new(seed ^ 3);
    let mut named = named.into_iter();
    let mut asked = (0..count.div_ceil(4)).map(|_| {
        // The named trees first: some of them have hundreds of declarations.
        let tree = named.next().unwrap_or_else(|| random_tree(&mut dice, &[]));
        (tree, dice.next())
    });
    all.readers(&mut asked);

    let numbers = all.by_number.iter().map(|(number, cases)| match number {
        0 => format!("answered {cases}"),
        _ => format!("{number}: {cases}"),
    });
    println!("by refusal: {}", numbers.collect::<Vec<_>>().join(", "));
    println!("compare: {} cases, {} differ", all.cases, all.differ);
    all.differ == 0
}

impl Comparison {
    /// The scoping call on all these trees, each lent memory in these ways.
    fn part(
        &mut self,
        what: &str,
        trees: &mut dyn Iterator<Item = Bytes>,
        ways: impl Fn(&mut Dice) -> Vec<Lending>,
    ) {
        let began = Instant::now();
        let (cases, differ) = (self.cases, self.differ);
        loop {
            let mut tasks = Vec::new();
            for tree in trees.take(BATCH) {
                let lendings = ways(&mut self.dice);
                // One verdict serves all ways of lending.
                let whole = Arc::new(Question::Analyze(lendings[0]).wanted(&tree));
                self.count_numbers(&whole, &lendings);
                let question = |lending| (Question::Analyze(lending), whole.clone());
                let questions = lendings.into_iter().map(question).collect();
                tasks.push(Task { tree, questions });
            }
            if tasks.is_empty() {
                break;
            }
            self.run(tasks);
        }
        self.say(what, cases, differ, began);
    }

    fn count_numbers(&mut self, whole: &Wanted, lendings: &[Lending]) {
        let Wanted::Analyzed(whole) = whole else { return };
        for lending in lendings {
            let room = lending.room(whole);
            let wanted = within(whole.as_ref().map_err(|refusal| *refusal), room);
            *self.by_number.entry(wanted.err().map_or(0, |refusal| refusal.number)).or_default() +=
                1;
        }
    }

    /// Both calls that read answered trees: of each tree its answer, and a
    /// damaged copy of that; now and then the tree as it came.
    fn readers(&mut self, trees: &mut dyn Iterator<Item = (Bytes, u64)>) {
        let began = Instant::now();
        let (cases, differ) = (self.cases, self.differ);
        for (tree, seed) in trees {
            let mut dice = Dice::new(seed);
            let answered = catch_unwind(AssertUnwindSafe(|| whole(&tree, List::Pruning)));
            let answer = match answered {
                Ok(Ok(scoped)) => scoped.answer,
                _ => tree,
            };
            let broken = damage(&mut dice, &answer);
            let mut tasks = Vec::new();
            for tree in [answer, broken] {
                let declarations =
                    read(&tree, Depths::Answered).map_or(1, |tree| tree.declarations.len()) as u32;
                let mut asked = vec![declarations, declarations.saturating_add(1), u32::MAX];
                // All of a few, some of many.
                let step = declarations.div_ceil(8).max(1);
                asked.extend((0..declarations).step_by(step as usize));
                asked.extend(declarations.checked_sub(1));
                let mut questions = Vec::new();
                for declaration in asked {
                    let question = Question::Read {
                        declaration,
                        max: dice.pick(&[0, 1, 2, 100, u32::MAX]),
                        told: dice.pick(&[0, 1, 2, 3, 4, 4, 4, 4, 5, 9]),
                        garbage: dice.next(),
                    };
                    let wanted = question.wanted(&tree);
                    if let Wanted::Read(row) = &wanted {
                        let number = row.as_ref().err().map_or(0, |refusal| refusal.number);
                        *self.by_number.entry(number).or_default() += 1;
                    }
                    questions.push((question, Arc::new(wanted)));
                }
                tasks.push(Task { tree, questions });
            }
            self.run(tasks);
        }
        self.say("readers of answered trees", cases, differ, began);
    }

    /// Asks the library on the small stack.
    fn run(&mut self, tasks: Vec<Task>) {
        let library = &mut self.library;
        let found = in_small_stack(|| {
            let mut found = Vec::new();
            for (k, task) in tasks.iter().enumerate() {
                for (question, wanted) in &task.questions {
                    if let Some(said) = question.difference(library, &task.tree, wanted) {
                        found.push((k, *question, said));
                    }
                }
            }
            found
        });
        self.cases += tasks.iter().map(|task| task.questions.len()).sum::<usize>();
        self.differ += found.len();
        let mut last = None;
        for (k, question, said) in found {
            // One line a tree, whatever was lent.
            if last.replace(k) == Some(k) || self.shown == SHOWN {
                continue;
            }
            self.shown += 1;
            show(&tasks[k].tree, question, &said);
            if self.shown <= SHRUNK {
                let small = self.small(tasks[k].tree.clone(), question);
                let wanted = question.wanted(&small);
                let library = &mut self.library;
                let said = in_small_stack(|| question.difference(library, &small, &wanted));
                print!("made small: ");
                show(&small, question, &said.unwrap_or_default());
            }
        }
    }

    fn small(&mut self, tree: Bytes, question: Question) -> Bytes {
        let library = &mut self.library;
        // What the original panics at is another finding.
        shrink(tree, SHRINKING, &mut |less| {
            let wanted = question.wanted(less);
            !matches!(wanted, Wanted::Panic)
                && in_small_stack(|| question.difference(library, less, &wanted).is_some())
        })
    }

    /// Number, place and lengths of all strings of three bytes. None of them
    /// passes, so that no more is to be seen.
    fn three_bytes(&mut self) {
        let began = Instant::now();
        let (cases, differ) = (self.cases, self.differ);
        let found = in_small_stack(|| {
            let mut found = Vec::new();
            let (mut answer, mut list) = ([0xAA; 16], [0xAAAA_AAAA; 4]);
            let mut work = vec![0xAAAA_AAAA; BENCH.work];
            for k in 0..1u32 << 24 {
                let tree = &k.to_be_bytes()[1..];
                let mut outcome = [u64::MAX; 4];
                library::analyze(tree, &mut answer, &mut list, &mut work, &mut outcome);
                let refusal = read(tree, Depths::Incoming).expect_err("three bytes are no tree");
                if outcome != [refusal.number as u64, refusal.place as u64, 0, 0] {
                    found.push(tree.to_vec());
                }
            }
            found
        });
        self.cases += 1 << 24;
        self.differ += found.len();
        for tree in found.iter().take(SHOWN) {
            println!("another verdict\n  tree {}", hex(tree));
        }
        self.say("three bytes, verdicts only", cases, differ, began);
    }

    fn say(&self, what: &str, cases: usize, differ: usize, began: Instant) {
        println!(
            "{what}: {} cases, {} differ, {:.0} s",
            self.cases - cases,
            self.differ - differ,
            began.elapsed().as_secs_f64()
        );
    }
}

fn show(tree: &[u8], question: Question, said: &str) {
    let mut spelled = hex(tree);
    if spelled.len() > LONGEST {
        spelled.truncate(LONGEST);
        spelled += &format!("... ({} bytes)", tree.len());
    }
    println!("{said} | {question:?} | {spelled}");
}

/// One of everything that docs/FORM.md names, both sides of every limit, and what is
/// slow.
fn named() -> Vec<Bytes> {
    let edges = sheet::NUMBER_EDGES.iter().map(|(bytes, _, _)| sheet::hex(bytes));
    let limits = limits::all().into_iter().map(|named| named.tree);
    let heavy = heavy::all().into_iter().map(|(_, tree)| tree);
    sheet::proved().into_iter().chain(edges).chain(limits).chain(heavy).collect()
}

/// P1 to P8 with each byte made each other one, and cut at each place.
fn changes() -> impl Iterator<Item = Bytes> {
    sheet::proved().into_iter().flat_map(|tree| {
        let cut = tree.clone();
        let cuts = (0..tree.len()).map(move |at| cut[..at].to_vec());
        let changed = (0..tree.len() * 256).map(move |k| {
            let mut other = tree.clone();
            other[k / 256] = k as u8;
            other
        });
        cuts.chain(changed)
    })
}

fn up_to_two() -> impl Iterator<Item = Bytes> {
    let one = (0..=u8::MAX).map(|byte| vec![byte]);
    let two = (0..=u16::MAX).map(|bytes| bytes.to_be_bytes().to_vec());
    std::iter::once(vec![]).chain(one).chain(two)
}

/// Of any style and size, a third of them damaged; or a damaged copy of a
/// named one.
fn random_tree(dice: &mut Dice, named: &[Bytes]) -> Bytes {
    if !named.is_empty() && dice.chance(5) {
        let tree = &named[dice.below(named.len())];
        // Large ones seldom: the original takes its time on them.
        if tree.len() < 2_000 || dice.chance(1) {
            return damage(dice, tree);
        }
    }
    let nodes = match dice.below(1_000) {
        0 => 5_000,
        1..=20 => 1_000,
        _ => dice.pick(&[3, 5, 10, 20, 40, 80, 200]),
    };
    any(dice, nodes, 33)
}
