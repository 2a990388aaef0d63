//! The oracle's checks of itself. Each compares two things made independently:
//! the original's answers with the words of docs/FORM.md, with the models, or with themselves.

mod limits;
mod proved;
mod trees;

/// All checks, the random ones on so many trees. Says what was done; panics
/// where two things differ.
pub fn selftest(count: usize, seed: u64) -> String {
    let limits = limits::check();
    proved::check();
    format!(
        "bench sheet, P1 to P8, {limits} edges and limits of the table: as docs/FORM.md says\n{}",
        trees::check(count, seed)
    )
}

/// The same, smaller, for `cargo test`.
#[cfg(test)]
mod tests {
    use crate::passes::List;

    /// Deep trees want more stack than a test has.
    fn with_stack(check: fn()) {
        let builder = std::thread::Builder::new().stack_size(crate::STACK);
        builder.spawn(check).unwrap().join().unwrap();
    }

    #[test]
    fn edges_and_limits_of_the_table() {
        with_stack(|| assert!(super::limits::check() > 600));
    }

    #[test]
    fn bench_sheet_and_proved_set() {
        with_stack(super::proved::check);
    }

    #[test]
    fn random_trees() {
        with_stack(|| println!("{}", super::trees::check(12_000, 7)));
    }

    #[test]
    fn findings() {
        with_stack(super::limits::findings);
    }

    #[test]
    fn heavy_trees_pass_in_the_sheets_room() {
        with_stack(|| {
            for (name, tree) in crate::generate::heavy::all() {
                let scoped = crate::passes::scope(&tree, crate::passes::BENCH, List::Pruning);
                assert_eq!(scoped.err(), None, "{name}");
            }
        });
    }

    #[test]
    fn answer_cases_are_within_bounds() {
        with_stack(|| {
            let cases = crate::answers::answer_cases(1_200, 1);
            assert_eq!(cases, crate::answers::answer_cases(1_200, 1), "the same seed, the same");
            assert!(cases.len() < 400_000);
            let (mut at, mut numbers) = (0, [0; 13]);
            while at < cases.len() {
                let header = cases[at..at + 32].chunks(4);
                let header: Vec<usize> = header
                    .map(|four| u32::from_le_bytes(four.try_into().unwrap()) as usize)
                    .collect();
                let [tree, answer, list, work, number, _, length, records] = header[..] else {
                    unreachable!()
                };
                let most = crate::answers::MOST;
                assert!(answer <= most.answer && list <= most.list && work <= most.work);
                numbers[number] += 1;
                let tree = if number == 1 { 0 } else { tree };
                at += 32 + tree + length + 8 * records;
            }
            assert_eq!(at, cases.len());
            assert_eq!(numbers.iter().sum::<i32>(), 1_200);
            assert!(numbers[0] > 500 && numbers.iter().all(|cases| *cases > 0), "{numbers:?}");
        });
    }

    #[test]
    fn cases_are_within_bounds() {
        with_stack(|| {
            let cases = crate::cases::cases(800, 1);
            assert_eq!(cases, crate::cases::cases(800, 1), "the same seed, the same cases");
            assert_eq!(cases.lines().count(), 800);
            assert!(cases.len() < 400_000);
            for number in [1, 3, 4, 5, 6, 7, 8, 9, 10] {
                let lines = cases.lines().filter(|line| line.starts_with(&format!("{number} ")));
                assert!(lines.count() >= if number == 1 { 1 } else { 12 }, "refusal {number}");
            }
        });
    }
}
