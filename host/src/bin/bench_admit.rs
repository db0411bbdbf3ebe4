//! Measures how long Admit takes: the engine and the plain Rust reader, in one process, on the same bytes.
//!
//! Run it in a release build (`cargo run --release --bin bench_admit`). Each sample times a batch of calls by
//! each implementation in turn; the figures are medians over the samples. Without the static library only the
//! plain reader is timed. If the engine of another revision is linked (see `host/before`), it is timed too,
//! in the column "before".

use std::hint::black_box;
use std::time::{Duration, Instant};

use host::generate::{full, nesting};
use host::{examples, on_large_stack, plain, Answer};

const SAMPLES: usize = 301;
/// A batch takes about this long, so that the time to read the clock is negligible.
const BATCH: Duration = Duration::from_micros(200);

type Admit = fn(&[u8]) -> Answer;

#[cfg(cabinet)]
const ENGINE: Option<Admit> = Some(host::engine::admit);
#[cfg(not(cabinet))]
const ENGINE: Option<Admit> = None;
#[cfg(all(cabinet, before))]
const BEFORE: Option<Admit> = Some(host::engine::before::admit);
#[cfg(not(all(cabinet, before)))]
const BEFORE: Option<Admit> = None;

fn main() {
    on_large_stack(|| {
        println!(
            "{:40} {:>7} {:>10} {:>10} {:>7} {:>10} {:>7}",
            "admit, microseconds a call", "blocks", "plain", "engine", "ratio", "before", "ratio"
        );
        for (name, bytes) in inputs() {
            row(name, &bytes);
        }
    });
}

/// Files of rule sets that are admitted, and one whose last block has a wrong sum.
fn inputs() -> Vec<(&'static str, Vec<u8>)> {
    let full = full::rules().file();
    let mut damaged = full.clone();
    let last_sum = damaged.len() - 512 + 2;
    damaged[last_sum] ^= 1;
    let star = nesting::worst()
        .into_iter()
        .find(|nesting| nesting.name == "star")
        .expect("stars are among the worst");
    vec![
        ("key cabinet", examples::key_cabinet(2).file()),
        ("library, 2 books and 2 members", examples::library(2, 2, 2).file()),
        ("library, 8 books and 8 members", examples::library(8, 8, 2).file()),
        ("full set, a large cabinet", full::large_cabinet().file()),
        ("full set, random", full),
        ("full set, last block's sum wrong", damaged),
        ("nested stars", star.file),
    ]
}

fn row(name: &str, bytes: &[u8]) {
    let answer = plain::admit(bytes);
    let readers = [Some(plain::admit as Admit), ENGINE, BEFORE];
    let mut times = [(); 3].map(|()| Vec::with_capacity(SAMPLES));
    let calls = calls_in_a_batch(plain::admit, bytes);
    for _ in 0..SAMPLES {
        for (reader, times) in readers.iter().zip(&mut times) {
            if let Some(admit) = reader {
                times.push(sample(*admit, bytes, calls));
            }
        }
    }
    for admit in readers.into_iter().flatten() {
        assert_eq!(answer, admit(bytes), "{name}: plain (left) and engine (right) differ");
    }
    let [plain, engine, before] = times.map(|mut times| median(&mut times));
    let figure = |time: Option<f64>| time.map_or("-".to_string(), |time| format!("{time:.3}"));
    let ratio = |over: Option<f64>, under: Option<f64>| match (over, under) {
        (Some(over), Some(under)) => format!("{:.2}", over / under),
        _ => "-".to_string(),
    };
    println!(
        "{name:40} {:>7} {:>10} {:>10} {:>7} {:>10} {:>7}",
        bytes.len() / 512,
        figure(plain),
        figure(engine),
        ratio(engine, plain),
        figure(before),
        ratio(engine, before)
    );
}

fn calls_in_a_batch(admit: Admit, bytes: &[u8]) -> u32 {
    let start = Instant::now();
    for _ in 0..50 {
        _ = black_box(admit(black_box(bytes)));
    }
    let one = (start.elapsed() / 50).max(Duration::from_nanos(1));
    (BATCH.as_nanos() / one.as_nanos()).clamp(1, 100_000) as u32
}

/// Microseconds per call.
fn sample(admit: Admit, bytes: &[u8], calls: u32) -> f64 {
    let start = Instant::now();
    for _ in 0..calls {
        _ = black_box(admit(black_box(bytes)));
    }
    start.elapsed().as_secs_f64() * 1e6 / f64::from(calls)
}

fn median(times: &mut [f64]) -> Option<f64> {
    times.sort_by(f64::total_cmp);
    times.get(times.len() / 2).copied()
}
