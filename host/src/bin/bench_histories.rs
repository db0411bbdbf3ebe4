//! Measures events per second as the history grows: Run by the engine and by the plain interpreter, which
//! keep cells and forget the events, and the history machine, which keeps the events and no values.
//!
//! Document 01, "Memory and the history machine". Run it in a release build (`cargo run --release --bin
//! bench_histories`); it prints a table for each system, as Markdown, and draws
//! `docs/events-per-second.svg`. Without the static library the engine is left out.
//!
//! The lists are visible moves, chosen at random with a fixed seed, at the readers 1 to 32 in rotation; every
//! length uses a prefix of one list. Run: the time of one call over the prefix, admission included, divided
//! by its length. History machine: the time of one event at that length, that is, of listing the moves and
//! taking one of them, with all values computed from the events; within one event no value is computed twice.
//! It is written to be simple, not fast: what matters is how its time grows. Each figure is the minimum over
//! several samples, since other work on the machine only adds to a sample; and it is processor time of the
//! one thread, since other work always interrupts a run of a second.

use std::hint::black_box;
use std::path::Path;
use std::rc::Rc;
use std::time::{Duration, Instant};

use host::calls::{Operations, Plain};
use host::generate::lent::zeros_for_run;
use host::generate::random::Random;
use host::generate::readers::by_turns;
use host::plain::histories::{self, Machine, Tree};
use host::plot::{thousands, three_figures, Line, Panel, Picture};
use host::rules::RuleSet;
use host::{bytes_of, examples, on_stack_of, Sizes};

const LENGTHS: [usize; 6] = [10, 100, 1_000, 10_000, 100_000, 1_000_000];
/// The history machine is timed over this many events before each length and as many after it, so that the
/// figure is not decided by a single term: not every term has a guard to evaluate.
const AROUND: usize = 10;
/// A sample takes at least this many seconds of the history machine, or this many events of a run: the clock
/// of a thread's time can be wrong by ten microseconds, and the minimum of many short samples would pick out
/// that error.
const SECONDS: f64 = 0.005;
const EVENTS: usize = 50_000;
/// Samples are taken for this long, and at least this many of them.
const SAMPLING: Duration = Duration::from_secs(3);
const LEAST_SAMPLES: usize = 5;
/// Values over a history are computed recursively, event by event, which takes some hundred bytes of stack
/// each.
const STACK: usize = 2 << 30;

/// The engine, if it is linked.
fn engine() -> Option<&'static dyn Operations> {
    #[cfg(cabinet)]
    return Some(&host::engine::Cabinet);
    #[cfg(not(cabinet))]
    return None;
}

/// `struct timespec` of time.h, on systems where both fields have 64 bits.
#[repr(C)]
struct Timespec {
    seconds: i64,
    nanoseconds: i64,
}

extern "C" {
    fn clock_gettime(clock: i32, time: *mut Timespec) -> i32;
}

/// CLOCK_THREAD_CPUTIME_ID of Linux.
const THREAD_TIME: i32 = 3;

/// Processor time of this thread, in seconds.
fn seconds() -> f64 {
    let mut time = Timespec { seconds: 0, nanoseconds: 0 };
    // SAFETY: the C library only writes the time, and keeps no pointer to it.
    let answer = unsafe { clock_gettime(THREAD_TIME, &mut time) };
    assert_eq!(0, answer, "no clock of a thread's time");
    time.seconds as f64 + time.nanoseconds as f64 * 1e-9
}

fn main() {
    on_stack_of(STACK, || {
        let systems = [
            ("Key cabinet, 2 keys", examples::key_cabinet(2)),
            ("Library, 2 books, 2 members", examples::library(2, 2, 2)),
            ("Counting cabinet, 2 keys", examples::counting_cabinet(2)),
        ];
        let panels = systems.map(|(name, rules)| {
            let rows = measured(&rules);
            print_table(name, &rows);
            panel(name, &rows)
        });
        let picture = Picture {
            title: "Events per second as the history grows",
            note: "Engine and plain interpreter keep cells; the history machine finds all values anew from \
                the events.",
            across: "events in the list that is run, or in the history",
            upwards: "events per second",
            panels: panels.into(),
        };
        let file = Path::new(env!("CARGO_MANIFEST_DIR")).join("../docs/events-per-second.svg");
        std::fs::write(&file, picture.svg()).expect("docs can be written");
        longest();
    });
}

/// Times a run of ten million numbers: the keys are taken and brought, one after the other, again and again.
fn longest() {
    let file = examples::key_cabinet(2).file();
    let (sizes, _) = histories::rule_set(&file).expect("an admitted rule set");
    let mut runs = Runs::new(&file, sizes, &[1, 0, 3, 2].repeat(2_500_000));
    let (engine, plain) = runs.times();
    let rate = |seconds: f64| three_figures(1.0 / seconds);
    println!(
        "Key cabinet, {} events: engine {}, plain Rust {} events/s",
        thousands(runs.length() as f64),
        engine.map_or("-".to_string(), rate),
        rate(plain)
    );
}

/// Seconds per event, at one length.
struct Row {
    length: usize,
    engine: Option<f64>,
    plain: f64,
    histories: f64,
}

/// The rows of one rule set, in order of length.
fn measured(rules: &RuleSet) -> Vec<Row> {
    let file = rules.file();
    let (sizes, _) = histories::rule_set(&file).expect("an admitted rule set");
    let mut walked = walk(rules);
    let mut rows = Vec::new();
    // The longest list first, since the machine can only go back to earlier histories.
    for (length, term) in LENGTHS.into_iter().zip(walked.terms.clone()).rev() {
        let histories = time_of_events(&mut walked, length, &term);
        let mut runs = Runs::new(&file, sizes, &walked.list[..length]);
        let (engine, plain) = runs.times();
        runs.check(&mut walked, &term);
        rows.push(Row { length, engine, plain, histories });
    }
    rows.reverse();
    rows
}

/// A list of visible moves and the machine that took them.
struct Walked<'a> {
    machine: Machine<'a>,
    list: Vec<u16>,
    /// For each length, the term at the first event that is timed.
    terms: Vec<Rc<Tree>>,
}

/// A random list of visible moves, `AROUND` longer than the longest length. In these systems there is always
/// a visible move.
fn walk(rules: &RuleSet) -> Walked<'_> {
    let mut random = Random::new(2);
    let mut walked = Walked { machine: Machine::new(rules), list: Vec::new(), terms: Vec::new() };
    for length in 0..LENGTHS[LENGTHS.len() - 1] + AROUND {
        if LENGTHS.contains(&(length + AROUND)) {
            walked.terms.push(walked.machine.term.clone());
        }
        let mut moves = walked.machine.moves();
        let visible: Vec<usize> = (0..moves.len()).filter(|&number| moves[number].event.is_some()).collect();
        let number = *random.pick(&visible);
        walked.list.push(number as u16);
        walked.machine.take(moves.swap_remove(number));
    }
    walked
}

/// Seconds per event of the history machine, at one length. No value is remembered from one event to the
/// next.
fn time_of_events(walked: &mut Walked, length: usize, term: &Rc<Tree>) -> f64 {
    let events = length - AROUND..length + AROUND;
    let numbers = &walked.list[events.clone()];
    let round = |machine: &mut Machine| {
        machine.undo((term.clone(), events.start));
        let start = seconds();
        for &number in numbers {
            machine.forget();
            machine.feed(black_box(number));
        }
        seconds() - start
    };
    let least = least(|| {
        let (mut time, mut rounds) = (0.0, 0);
        while time < SECONDS {
            time += round(&mut walked.machine);
            rounds += 1;
        }
        time / f64::from(rounds)
    });
    least / numbers.len() as f64
}

/// The minimum of several samples.
fn least(mut sample: impl FnMut() -> f64) -> f64 {
    let (begin, mut samples, mut least) = (Instant::now(), 0, f64::MAX);
    while samples < LEAST_SAMPLES || begin.elapsed() < SAMPLING {
        least = least.min(sample());
        samples += 1;
    }
    least
}

/// Calls of Run over one list.
struct Runs<'a> {
    file: &'a [u8],
    list: Vec<u8>,
    lent: [Vec<u8>; 5],
}

impl<'a> Runs<'a> {
    fn new(file: &'a [u8], sizes: Sizes, list: &[u16]) -> Runs<'a> {
        Runs { file, list: by_turns(list), lent: zeros_for_run(sizes) }
    }

    fn length(&self) -> usize {
        self.list.len() / 4
    }

    /// Seconds per event of the engine and of the plain interpreter, sampled in turn.
    fn times(&mut self) -> (Option<f64>, f64) {
        let mut engine_least = f64::MAX;
        let plain = least(|| {
            if let Some(engine) = engine() {
                engine_least = engine_least.min(self.sample(engine));
            }
            self.sample(&Plain)
        });
        (engine().map(|_| engine_least), plain)
    }

    /// One sample: seconds per event.
    fn sample(&mut self, by: &dyn Operations) -> f64 {
        let calls = (EVENTS / self.length()).max(1);
        let start = seconds();
        for _ in 0..calls {
            self.run(by);
        }
        (seconds() - start) / (calls * self.length()) as f64
    }

    /// One call of Run. Every number of the list is a visible move.
    fn run(&mut self, by: &dyn Operations) {
        let lent = self.lent.each_mut().map(Vec::as_mut_slice);
        let ran = by.run(black_box(self.file), black_box(&self.list), lent);
        assert_eq!(Ok(self.length() as u64), black_box(ran).map(|tally| tally.visible));
    }

    /// Asserts that all three end in the same term with the same values.
    fn check(&mut self, walked: &mut Walked, term: &Rc<Tree>) {
        let length = self.length();
        walked.machine.undo((term.clone(), length - AROUND));
        walked.list[length - AROUND..length].iter().for_each(|&number| walked.machine.feed(number));
        let mut words = histories::spelled(&walked.machine.term);
        words.resize(self.lent[1].len() / 2, 0);
        let (term, memory) = (bytes_of(&words), bytes_of(&walked.machine.values()));
        for by in [Some(&Plain as &dyn Operations), engine()].into_iter().flatten() {
            self.run(by);
            assert!(self.lent[1] == term && self.lent[2] == memory, "Run and the history machine differ");
        }
    }
}

/// Prints events per second, and the engine's time divided by the plain interpreter's.
fn print_table(name: &str, rows: &[Row]) {
    println!("### {name}\n");
    println!(
        "| events | engine, events/s | plain Rust, events/s | histories, events/s | engine / plain time |"
    );
    println!("|---:|---:|---:|---:|---:|");
    for row in rows {
        let figure = |number: Option<f64>| number.map_or("-".to_string(), three_figures);
        println!(
            "| {} | {} | {} | {} | {} |",
            thousands(row.length as f64),
            figure(row.engine.map(|seconds| 1.0 / seconds)),
            figure(Some(1.0 / row.plain)),
            figure(Some(1.0 / row.histories)),
            figure(row.engine.map(|seconds| seconds / row.plain))
        );
    }
    println!();
}

fn panel(name: &str, rows: &[Row]) -> Panel {
    let line = |name, seconds: fn(&Row) -> Option<f64>| {
        let point = |row: &Row| seconds(row).map(|seconds| (row.length as f64, 1.0 / seconds));
        Line { name, points: rows.iter().filter_map(point).collect() }
    };
    let lines = vec![
        line("engine", |row| row.engine),
        line("plain Rust over cells", |row| Some(row.plain)),
        line("plain Rust over the history", |row| Some(row.histories)),
    ];
    Panel { title: name.to_string(), lines }
}
