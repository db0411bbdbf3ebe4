//! All implementations of Run: the plain interpreter over cells, the history machine, and, if it is linked,
//! the engine.
//!
//! Document 01, "Memory and the history machine" and "Operations"; document 02, K1.

use crate::calls::{Outcome, Reply};
use crate::plain::histories;
use crate::{plain, LentToRun, Ran};

/// An implementation of Run.
pub type Run = fn(&[u8], &[u8], LentToRun) -> Ran;

/// All implementations of Run, with their names.
pub const MACHINES: &[(&str, Run)] = &[
    ("cells", plain::run),
    ("histories", histories::run),
    #[cfg(cabinet)]
    ("engine", |rules, list, lent| crate::calls::Operations::run(&crate::engine::Cabinet, rules, list, lent)),
];

/// Runs a list on copies of the lent buffers.
pub fn outcome(run: Run, rules: &[u8], list: &[u8], lent: &[Vec<u8>; 5]) -> Outcome {
    let mut lent = lent.clone();
    let ran = run(rules, list, lent.each_mut().map(Vec::as_mut_slice));
    Outcome { reply: Reply::Ran(ran), lent: lent.to_vec() }
}
