//! Measures how long Start, Count, Move, Present and Run take: the engine and the plain interpreter, in one
//! process, on the same bytes.
//!
//! Run it in a release build (`cargo run --release --bin bench_operations`). A first argument selects the
//! rows whose names contain it; a second, `plain` or `engine`, times only that side, for a profiler. Each
//! sample times a batch of calls by each side in turn; the figures are the minimum over the samples, since
//! other work on the machine only adds to a sample. Every call admits the rule set and checks the term again.
//! The numbers of a run come from the readers 1 to 32 in rotation, and both sides count by reader. Without
//! the static library only the plain interpreter is timed.

use std::hint::black_box;
use std::time::{Duration, Instant};

use host::calls::{ask, Call, Operation, Operations, Plain};
use host::generate::calls::Subject;
use host::generate::lent::zeros_for_run;
use host::generate::random::Random;
use host::generate::readers::by_turns;
use host::generate::running::{self, State};
use host::rules::RuleSet;
use host::{bytes_of, examples, on_large_stack, plain, words_of};

const SAMPLES: usize = 201;
/// A batch takes about this long, so that the time to read the clock is negligible.
const BATCH: Duration = Duration::from_micros(500);
/// The length of a run's list; a run's time is printed per number.
const NUMBERS: usize = 1000;

/// The engine, if it is linked.
fn engine() -> Option<&'static dyn Operations> {
    #[cfg(cabinet)]
    return Some(&host::engine::Cabinet);
    #[cfg(not(cabinet))]
    return None;
}

fn main() {
    on_large_stack(|| {
        println!(
            "{:46} {:>7} {:>7} {:>10} {:>10} {:>7}",
            "microseconds a call (a run: a number)", "words", "moves", "plain", "engine", "ratio"
        );
        systems();
        terms();
    });
}

/// Whether the row of this name is selected by the first argument.
fn wanted(name: &str) -> bool {
    std::env::args().nth(1).is_none_or(|word| name.contains(&word))
}

/// Whether some row of the rule set of this name may be selected: the names of its rows begin with it.
fn may_be_wanted(name: &str) -> bool {
    wanted(name) || std::env::args().nth(1).is_some_and(|word| word.starts_with(name))
}

/// Whether this side, `plain` or `engine`, is selected by the second argument.
fn side_wanted(side: &str) -> bool {
    std::env::args().nth(2).is_none_or(|word| word == side)
}

fn subject(name: &str, rules: RuleSet) -> Subject {
    Subject::new(name, rules).expect("an admitted rule set")
}

/// Rule sets, each at its start and in the state with the most moves of a random walk.
fn systems() {
    let systems = [
        ("key cabinet, 2 keys", examples::key_cabinet(2)),
        ("key cabinet, 64 keys", examples::key_cabinet(64)),
        ("library, 2 books, 2 members", examples::library(2, 2, 2)),
        ("library, 4 books, 4 members", examples::library(4, 4, 2)),
        ("library, 8 books, 8 members", examples::library(8, 8, 2)),
        ("attended cabinet, 2 keys", examples::attended_cabinet(2)),
        ("attended cabinet, 16 keys", examples::attended_cabinet(16)),
        ("ten copies", examples::copies_of_choice(10)),
    ];
    for (name, rules) in systems.into_iter().filter(|(name, _)| may_be_wanted(name)) {
        let subject = subject(name, rules);
        let buffers = [subject.sizes.reach, subject.sizes.cells].map(|words| vec![0; 2 * words as usize]);
        let start = Call {
            name: "start".to_string(),
            operation: Operation::Start,
            given: vec![subject.file.clone()],
            lent: buffers.to_vec(),
            expected: Some(0),
        };
        row(&subject, &start, subject.sizes.size as usize, 0, 1);
        state_rows(&subject, &busy_state(&subject));
        run_row(&subject);
    }
}

/// The state with the most moves of a random walk.
fn busy_state(subject: &Subject) -> State {
    let mut random = Random::new(1);
    let states = running::walk(&mut random, &subject.file, subject.sizes, 40);
    let moves = |state: &State| plain::count(&subject.file, &state.term, &state.memory);
    states.into_iter().max_by_key(moves).expect("the start at least")
}

/// Terms at the limits, given to the key cabinet.
fn terms() {
    let (step, take, done) = (&[20][..], &[21, 0, 1, 0][..], &[30][..]);
    let (beside, masked) = (&[25, 0, 0, 0, 0][..], &[25, 2, 0, 0, 0][..]);
    let nested = |levels: usize, open: &[&[u16]], middle: &[u16], close: &[u16]| {
        [&open.concat().repeat(levels), middle, &close.repeat(levels)].concat()
    };
    let terms = [
        ("4,000 sequences to the left", nested(4000, &[&[22]], step, step)),
        ("4,000 sequences after done", nested(4000, &[&[22], done], step, &[])),
        ("1,600 choices to the right", nested(1600, &[&[23], take], take, &[])),
        ("900 parallels to the left", nested(900, &[beside], take, take)),
        ("900 parallels to the right", nested(900, &[beside, take], take, &[])),
        ("1,300 masked parallels with done", nested(1300, &[masked, done], take, &[])),
        ("40 masked parallels with done, 2,500 moves", nested(40, &[masked, done], &many_moves(50), &[])),
        ("120 stars", nested(120, &[&[24]], take, &[])),
        ("4,000 guards", nested(4000, &[&[26, 13]], step, &[])),
        ("900 guards that read a cell", nested(900, &[&[26, 8, 6, 0, 1, 0, 1, 0]], take, &[])),
    ];
    for (name, words) in terms.into_iter().filter(|(name, _)| may_be_wanted(name)) {
        let cabinet = subject(name, examples::key_cabinet(2));
        state_rows(&cabinet, &State { term: bytes_of(&words), memory: vec![0; 4] });
    }
}

/// Two choices of n Takes each, in parallel with mask Take: n² moves.
fn many_moves(takes: usize) -> Vec<u16> {
    let choice = [&[23, 21, 0, 1, 0].repeat(takes - 1)[..], &[21, 0, 1, 0]].concat();
    [&[25, 1, 0, 0, 0], &choice[..], &choice].concat()
}

/// The rows of a state: Count, then the last move by its number and by its event.
fn state_rows(subject: &Subject, state: &State) {
    let (_, reach, _) = running::measures(&subject.rules, &words_of(&state.term));
    let lent = vec![vec![0; 2 * reach as usize], vec![0; 2 * subject.sizes.cells as usize]];
    let given = vec![subject.file.clone(), state.term.clone(), state.memory.clone()];
    let call = |name: &str, operation, given, lent| Call {
        name: name.to_string(),
        operation,
        given,
        lent,
        expected: Some(0),
    };
    let count = plain::count(&subject.file, &state.term, &state.memory).expect("a right term");
    let words = state.term.len() / 2;
    let row = |call: Call| row(subject, &call, words, count, 1);
    row(call("count", Operation::Count, given.clone(), Vec::new()));
    let last = Operation::Move(u64::from(count) - 1);
    row(call("move, the last", last, given.clone(), lent.clone()));
    let (mut term, mut memory) = (lent[0].clone(), lent[1].clone());
    let made = plain::make_move(
        &subject.file,
        &state.term,
        &state.memory,
        u64::from(count) - 1,
        &mut term,
        &mut memory,
    );
    let event = made.expect("the last move").action.words();
    let given = [given, vec![bytes_of(&event)]].concat();
    row(call("present, the last's action", Operation::Present, given, lent));
}

/// The row of Run: a list that takes visible moves as far as there are any.
fn run_row(subject: &Subject) {
    if !wanted(&format!("{}: run", subject.name)) {
        return;
    }
    let (mut random, mut list) = (Random::new(2), Vec::new());
    let mut state = running::start(&subject.file, subject.sizes);
    while list.len() < NUMBERS {
        let moves = plain::count(&subject.file, &state.term, &state.memory).expect("a reached state");
        let next = |number| running::after(&subject.file, subject.sizes, &state, number);
        let visible = |state: &State, next: &State| state.memory != next.memory;
        let mut found = None;
        for _ in 0..20.min(moves) {
            let number = random.below(moves as usize) as u64;
            let after = next(number);
            if visible(&state, &after) {
                found = Some((number, after));
                break;
            }
        }
        // If no move found renews a cell, the list takes the last move, or 0, which is refused, if there is
        // no move.
        let (number, after) = found.unwrap_or_else(|| {
            let last = u64::from(moves).saturating_sub(1);
            (last, if moves == 0 { state.clone() } else { next(last) })
        });
        list.push(number as u16);
        state = after;
    }
    let call = Call {
        name: "run".to_string(),
        operation: Operation::Run,
        given: vec![subject.file.clone(), by_turns(&list)],
        lent: zeros_for_run(subject.sizes).to_vec(),
        expected: Some(0),
    };
    row(subject, &call, subject.sizes.size as usize, 0, NUMBERS);
}

/// Prints one row: the time of a call, divided by `parts`.
fn row(subject: &Subject, call: &Call, words: usize, moves: u32, parts: usize) {
    let name = format!("{}: {}", subject.name, call.name);
    if !wanted(&name) {
        return;
    }
    let given: Vec<&[u8]> = call.given.iter().map(Vec::as_slice).collect();
    let mut lent = call.lent.clone();
    let calls = calls_in_a_batch(&given, call.operation, &mut lent);
    let engine = engine();
    let (mut plain_least, mut engine_least) = (f64::MAX, f64::MAX);
    for _ in 0..SAMPLES {
        if side_wanted("plain") {
            plain_least = plain_least.min(sample(&Plain, &given, call.operation, &mut lent, calls));
        }
        if let Some(engine) = engine.filter(|_| side_wanted("engine")) {
            engine_least = engine_least.min(sample(engine, &given, call.operation, &mut lent, calls));
        }
    }
    let (plain, timed) = (plain_least / parts as f64, engine_least / parts as f64);
    let (timed, ratio) = match engine {
        Some(engine) => {
            assert!(call.outcome(&Plain).same(&call.outcome(engine)), "{name}: answers differ");
            (format!("{timed:.3}"), format!("{:.2}", timed / plain))
        }
        None => ("-".to_string(), "-".to_string()),
    };
    let moves = if moves == 0 { "-".to_string() } else { moves.to_string() };
    println!("{name:46} {words:>7} {moves:>7} {plain:>10.3} {timed:>10} {ratio:>7}");
}

fn once(by: &dyn Operations, given: &[&[u8]], operation: Operation, lent: &mut [Vec<u8>]) {
    let mut slices: [&mut [u8]; 5] = [&mut [], &mut [], &mut [], &mut [], &mut []];
    let count = lent.len();
    for (slice, buffer) in slices.iter_mut().zip(lent) {
        *slice = buffer;
    }
    let reply = ask(by, operation, black_box(given), &mut slices[..count]);
    assert_eq!(0, black_box(reply).refusal());
}

fn calls_in_a_batch(given: &[&[u8]], operation: Operation, lent: &mut [Vec<u8>]) -> u32 {
    let start = Instant::now();
    for _ in 0..10 {
        once(&Plain, given, operation, lent);
    }
    let one = (start.elapsed() / 10).max(Duration::from_nanos(1));
    (BATCH.as_nanos() / one.as_nanos()).clamp(1, 100_000) as u32
}

/// Microseconds per call.
fn sample(
    by: &dyn Operations,
    given: &[&[u8]],
    operation: Operation,
    lent: &mut [Vec<u8>],
    calls: u32,
) -> f64 {
    let start = Instant::now();
    for _ in 0..calls {
        once(by, given, operation, lent);
    }
    start.elapsed().as_secs_f64() * 1e6 / f64::from(calls)
}
