//! Calls on the deepest and broadest terms take time in proportion to their words and moves, not to the
//! square of their depth; and each number of a run takes the same time, however long the list is.
//!
//! Document 01, "Unfolding, size and breadth": a term has at most 8,192 words of reach and 65,535 moves. If
//! something were listed or skipped again at every level, such a term would take a hundred times as long as
//! on the plain interpreter, or a million times; the bound here is between that and the few times that the
//! engine takes.
#![cfg(cabinet)]

use std::time::{Duration, Instant};

use host::calls::{Call, Operation, Operations, Plain};
use host::engine::Cabinet;
use host::generate::{deep, lent, readers, running};
use host::{bytes_of, examples, on_large_stack, plain};

/// The engine may take `TIMES` times as long as the plain interpreter, and `MORE` in addition.
const TIMES: u32 = 15;
const MORE: Duration = Duration::from_micros(200);
/// The minimum of this many samples is compared.
const SAMPLES: usize = 7;

const TAKE: &[u16] = &[21, 0, 1, 0];
const DONE: &[u16] = &[30];
/// A parallel whose mask has Take, and one whose mask has Bring.
const ON_TAKE: &[u16] = &[25, 1, 0, 0, 0];
const ON_BRING: &[u16] = &[25, 2, 0, 0, 0];

fn nested(levels: usize, open: &[&[u16]], middle: &[u16], close: &[u16]) -> Vec<u16> {
    [&open.concat().repeat(levels), middle, &close.repeat(levels)].concat()
}

/// Two choices of n Takes each, in parallel with mask Take: n² moves.
fn many_moves(takes: usize) -> Vec<u16> {
    let choice = [&[&[23], TAKE].concat().repeat(takes - 1)[..], TAKE].concat();
    [ON_TAKE, &choice, &choice].concat()
}

fn terms() -> Vec<(&'static str, Vec<u16>)> {
    let guarded = &[26, 13][..];
    vec![
        ("masks, done on the left, around 65,025 moves", nested(939, &[ON_BRING, DONE], &many_moves(255), &[])),
        ("masks, done on the right, around 65,025 moves", nested(939, &[ON_BRING], &many_moves(255), DONE)),
        ("masks, done on the left", nested(1300, &[ON_BRING, DONE], TAKE, &[])),
        ("masks, done on the right", nested(1300, &[ON_BRING], TAKE, DONE)),
        ("masks, guarded, a choice of dones on the right", nested(700, &[ON_BRING, guarded], TAKE, &[23, 30, 30])),
        ("14 masks with a move on both sides around guards", {
            nested(14, &[ON_BRING, TAKE], &nested(3800, &[guarded], TAKE, &[]), &[])
        }),
        ("choices to the left", nested(4000, &[&[23]], &[20], &[20])),
        ("choices and sequences to the left", nested(2000, &[&[23, 22]], &[20], &[20, 20])),
        ("sequences to the left", nested(4000, &[&[22]], &[20], &[20])),
        ("stars", nested(120, &[&[24]], TAKE, &[])),
        ("parallels to the left", nested(900, &[&[25, 0, 0, 0, 0]], TAKE, TAKE)),
    ]
}

/// The time of all calls together, the minimum of some samples: other work on the machine only adds to a
/// sample.
fn least(by: &dyn Operations, calls: &[Call]) -> Duration {
    least_of(SAMPLES, by, calls)
}

fn least_of(samples: usize, by: &dyn Operations, calls: &[Call]) -> Duration {
    let sample = |_| {
        let start = Instant::now();
        calls.iter().for_each(|call| drop(call.outcome(by)));
        start.elapsed()
    };
    (0..samples).map(sample).min().expect("a sample")
}

#[test]
fn depth_costs_no_square() {
    on_large_stack(|| {
        let rules = examples::key_cabinet(2);
        let (file, memory) = (rules.file(), vec![0; 4]);
        for (name, words) in terms() {
            let term = bytes_of(&words);
            let count = plain::count(&file, &term, &memory).unwrap_or_else(|refusal| panic!("{name}: {refusal}"));
            let (_, reach, _) = running::measures(&rules, &words);
            let call = |operation, given, lent| Call { name: name.to_string(), operation, given, lent, expected: Some(0) };
            let given = vec![file.clone(), term, memory.clone()];
            let lent = vec![vec![0; 2 * reach as usize], vec![0; 4]];
            // The first move's path is the deepest for nesting on the left, the last move's for nesting on
            // the right.
            let calls = [
                call(Operation::Count, given.clone(), Vec::new()),
                call(Operation::Move(0), given.clone(), lent.clone()),
                call(Operation::Move(u64::from(count) - 1), given, lent),
            ];
            for call in &calls {
                let (plain, engine) = (call.outcome(&Plain), call.outcome(&Cabinet));
                assert!(plain.same(&engine), "{name}: {:?} is answered otherwise", call.operation);
            }
            let (plain, engine) = (least(&Plain, &calls), least(&Cabinet, &calls));
            assert!(
                engine < TIMES * plain + MORE,
                "{name}, {} words, {count} moves: plain {plain:?}, engine {engine:?}",
                words.len()
            );
        }
    });
}

#[test]
fn rounds_cost_no_square() {
    on_large_stack(|| {
        for call in deep::rounds() {
            let (plain, engine) = (call.outcome(&Plain), call.outcome(&Cabinet));
            assert!(plain.same(&engine), "{} is answered otherwise", call.name);
            let calls = [call];
            let (plain, engine) = (least(&Plain, &calls), least(&Cabinet, &calls));
            assert!(engine < TIMES * plain + MORE, "{}: plain {plain:?}, engine {engine:?}", calls[0].name);
        }
    });
}

/// A run in which the keys are taken and brought, one after the other, `rounds` times.
fn long_run(rounds: usize) -> Call {
    let file = examples::key_cabinet(2).file();
    let sizes = plain::admit(&file).expect("the key cabinet is admitted");
    Call {
        name: format!("{} numbers", 4 * rounds),
        operation: Operation::Run,
        given: vec![file, readers::by_turns(&[1, 0, 3, 2].repeat(rounds))],
        lent: lent::zeros_for_run(sizes).to_vec(),
        expected: Some(0),
    }
}

#[test]
fn ten_million_numbers_take_as_long_each_as_ten_thousand() {
    let (short, long) = (long_run(2_500), long_run(2_500_000));
    assert!(long.outcome(&Plain).same(&long.outcome(&Cabinet)), "{} are answered otherwise", long.name);
    let (short, long) = (least(&Cabinet, &[short]), least_of(2, &Cabinet, &[long]));
    assert!(long < 2 * 1000 * short, "10,000 numbers {short:?}, 10,000,000 {long:?}");
}
