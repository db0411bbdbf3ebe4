//! Counts how often each operation returned which refusal in a test of many calls.
//!
//! Document 01, the table of refusals, and 13 of document 02. A test that never gets a refusal has not tested
//! it, so it prints what it got, and fails if one is missing.

use std::collections::BTreeMap;
use std::io::Write;

use crate::calls::{Call, Operation, Reply};

/// The operations other than Admit by name, each with its refusals besides 1 to 8.
const TABLE: [(&str, &[u8]); 5] = [
    ("start", &[9]),
    ("count", &[10, 9]),
    ("move", &[10, 9, 12]),
    ("present", &[10, 11, 9, 12]),
    ("run", &[9, 13]),
];

fn name(operation: Operation) -> &'static str {
    match operation {
        Operation::Start => "start",
        Operation::Count => "count",
        Operation::Move(_) => "move",
        Operation::Present => "present",
        Operation::Run => "run",
    }
}

/// The number of replies by operation and refusal; 0 means done.
#[derive(Default)]
pub struct Met(BTreeMap<(&'static str, u8), usize>);

impl Met {
    pub fn note(&mut self, call: &Call, reply: &Reply) {
        *self.0.entry((name(call.operation), reply.refusal())).or_default() += 1;
    }

    pub fn calls(&self) -> usize {
        self.0.values().sum()
    }

    /// Prints the counts, one line per operation. Written to the handle, not by println!, so that the test
    /// harness does not swallow them.
    pub fn say(&self, by: &str) {
        let mut output = std::io::stdout().lock();
        let mut line = |line: String| writeln!(output, "{line}").expect("standard output takes a line");
        line(format!("{} calls of {by}; by operation and refusal (0: done):", self.calls()));
        for (operation, _) in TABLE {
            let counts = self.0.iter().filter(|((name, _), _)| *name == operation);
            let counts: Vec<String> =
                counts.map(|((_, refusal), count)| format!("{refusal}: {count}")).collect();
            if !counts.is_empty() {
                line(format!("{operation:8} {}", counts.join(", ")));
            }
        }
    }

    /// Fails unless each of these operations was done at least once and returned each of its refusals at
    /// least once.
    pub fn require(&self, asked: &[Operation]) {
        for (operation, more) in TABLE.iter().filter(|(known, _)| asked.iter().any(|&o| name(o) == *known)) {
            for refusal in (0..=8).chain(more.iter().copied()) {
                assert!(self.0.contains_key(&(*operation, refusal)), "no {operation} was answered {refusal}");
            }
        }
    }
}
