//! The engine's Run against the plain interpreter, over cells and over histories: long runs with room in
//! every buffer. (`operations` has the short ones, in buffers of every length; `readers` has the tests of the
//! table.)
//!
//! Document 01, "Memory and the history machine". Compiled only if the engine is linked (cfg `cabinet`).
//! `ROUNDS=20` generates twenty times as many random cases.
#![cfg(cabinet)]

use host::generate::calls::{subjects_of_all_shapes, Subject};
use host::generate::lent::roomy_for_run;
use host::generate::random::Random;
use host::generate::readers;
use host::machines::{outcome, MACHINES};
use host::{on_large_stack, plain};

fn rounds() -> usize {
    std::env::var("ROUNDS").ok().and_then(|rounds| rounds.parse().ok()).unwrap_or(1)
}

/// Runs in which every buffer has room: the engine, the cells and the history agree.
#[test]
fn runs_are_those_of_the_history_machine() {
    on_large_stack(|| {
        let mut random = Random::new(41);
        let subjects = subjects_of_all_shapes(&mut random, 30 * rounds());
        for subject in &subjects {
            for length in [0, 1, 10, 100, 1000] {
                check_run(&mut random, subject, length);
            }
        }
    });
}

fn check_run(random: &mut Random, subject: &Subject, length: usize) {
    let Subject { name, file, sizes, .. } = subject;
    let (list, lent) = (readers::list(random, length), roomy_for_run(random, *sizes));
    let cells = outcome(plain::run, file, &list, &lent);
    for (by, run) in &MACHINES[1..] {
        if *by == "histories" && length > 250 && sizes.breadth > 500 {
            // The history machine lists every move with its successor, which takes too long here.
            continue;
        }
        let left = outcome(*run, file, &list, &lent);
        assert_eq!(cells.reply, left.reply, "{name}: cells (left) and {by} (right), {list:?}");
        assert!(cells.same(&left), "{name}: cells and {by}, {list:?}");
    }
}
