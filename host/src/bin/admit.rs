//! Admits rule files with the engine and prints its answers in words.
//!
//! Document 01, "Operations" (Admit) and its table of refusals. If the static library is not linked, the
//! program prints that instead.

use std::process::ExitCode;

/// The table's word and condition for each refusal of Admit.
#[cfg(cabinet)]
const REFUSALS: [(&str, &str); 8] = [
    ("length", "it is not 1 to 64 whole blocks"),
    ("block", "a block number or sum is wrong"),
    ("edition", "it is of another edition, or its count of blocks is wrong"),
    ("form", "a count, size, code or constant is out of range, or the stream ends wrongly"),
    ("reference", "a number or mask bit is not defined, or not allowed there"),
    ("kind", "an argument's domain or constant does not fit"),
    ("size", "main could grow past 8,192 words"),
    ("breadth", "main could have more than 65,535 moves"),
];

#[cfg(cabinet)]
fn answer(rules: &[u8]) -> String {
    match host::on_large_stack(|| host::engine::admit(rules)) {
        Ok(sizes) => format!(
            "admitted: {} cells; term buffers of {} words; at most {} moves; the start term has {} words",
            sizes.cells, sizes.reach, sizes.breadth, sizes.size
        ),
        Err(number) => {
            let (word, when) = REFUSALS[usize::from(number) - 1];
            format!("refused {number}, {word}: {when}")
        }
    }
}

#[cfg(not(cabinet))]
fn answer(_rules: &[u8]) -> String {
    "the engine is not built: run `host/engine` first".to_string()
}

fn main() -> ExitCode {
    let files: Vec<String> = std::env::args().skip(1).collect();
    if files.is_empty() {
        eprintln!("usage: admit FILE...");
        return ExitCode::FAILURE;
    }
    for file in files {
        match std::fs::read(&file) {
            Ok(rules) => println!("{file}: {}", answer(&rules)),
            Err(error) => {
                eprintln!("{file}: {error}");
                return ExitCode::FAILURE;
            }
        }
    }
    ExitCode::SUCCESS
}
