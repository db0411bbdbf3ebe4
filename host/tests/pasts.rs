//! Request K10 (document 02): two histories that end with equal terms and equal values have one future.
//! Random lists of numbers with the same end, and the same further lists after both, on the plain
//! interpreter, on the history machine and, if it is linked, on the engine. `ROUNDS=20` generates twenty
//! times as many random cases.

use std::collections::HashMap;

use host::generate::calls::{subjects_of_all_shapes, Subject};
use host::generate::lent::zeros_for_run;
use host::generate::random::Random;
use host::generate::readers;
use host::machines::{outcome, Run, MACHINES};
use host::plain::histories;
use host::{on_large_stack, Tally};

/// What a run leaves: its counts, its table, and as state main's G words and C cells.
struct Left {
    tally: Tally,
    table: Vec<u8>,
    state: (Vec<u8>, Vec<u8>),
}

fn left(run: Run, subject: &Subject, list: &[u8]) -> Left {
    let mut lent = zeros_for_run(subject.sizes);
    lent.iter_mut().for_each(|buffer| buffer.fill(0xa5));
    let left = outcome(run, &subject.file, list, &lent);
    let [table, term, memory] = [0, 1, 2].map(|buffer: usize| left.lent[buffer].clone());
    Left { tally: left.tally(), table, state: (term, memory) }
}

/// What a further list adds to the counts, and to each reader's counts.
fn added(first: &Left, whole: &Left) -> ([u64; 3], Vec<[u32; 3]>) {
    let (before, after) = (first.tally.counts(), whole.tally.counts());
    ([0, 1, 2].map(|count| after[count] - before[count]), readers::increases(&first.table, &whole.table))
}

/// Asserts that after two lists with the same end each number of a further list has the same effect.
fn check_future(subject: &Subject, one: &[u8], other: &[u8], further: &[u8]) {
    for (by, run) in MACHINES {
        let (first, second) = (left(*run, subject, one), left(*run, subject, other));
        let lists = || format!("{}, {by}: {one:?} and {other:?}, {further:?}", subject.name);
        assert_eq!(first.state, second.state, "{}", lists());
        for end in (0..=further.len()).step_by(4) {
            let whole = left(*run, subject, &[one, &further[..end]].concat());
            let other_whole = left(*run, subject, &[other, &further[..end]].concat());
            assert_eq!(whole.state, other_whole.state, "{}", lists());
            assert_eq!(added(&first, &whole), added(&second, &other_whole), "{}", lists());
        }
    }
}

#[test]
fn histories_with_equal_ends_have_one_future() {
    let (pairs, unequal) = on_large_stack(|| {
        let rounds = std::env::var("ROUNDS").ok().and_then(|rounds| rounds.parse().ok()).unwrap_or(1);
        let mut random = Random::new(53);
        let subjects = subjects_of_all_shapes(&mut random, 10 * rounds);
        let (mut pairs, mut unequal) = (0, 0);
        for subject in subjects.iter().filter(|subject| subject.sizes.breadth < 500) {
            let mut met: HashMap<(Vec<u8>, Vec<u8>), Vec<u8>> = HashMap::new();
            for length in (0..24).chain(0..24) {
                let list = readers::list(&mut random, length);
                let list = &list[..4 * length];
                let end = left(histories::run, subject, list);
                if let Some(other) = met.get(&end.state) {
                    check_future(subject, list, other, &readers::list(&mut random, 5)[..20]);
                    pairs += 1;
                    let taken = |tally: Tally| (tally.visible, tally.internal);
                    unequal +=
                        usize::from(taken(end.tally) != taken(left(histories::run, subject, other).tally));
                } else {
                    met.insert(end.state, list.to_vec());
                }
            }
        }
        (pairs, unequal)
    });
    println!("{pairs} pairs of histories, {unequal} of them with unequal numbers of moves");
    assert!(pairs > 500 && unequal > 100, "{pairs} pairs, {unequal} of unequal lengths");
}
