//! The engine of another revision (see `host/before`), so that both are timed in one process. Compiled only
//! with its library (cfg `before`).

use super::{answer_of, AdmitReply};
use crate::Answer;

extern "C" {
    fn before_eb3_admit(rules: *const u8, rules_len: usize) -> AdmitReply;
}

/// Admit of that engine.
pub fn admit(rules: &[u8]) -> Answer {
    // SAFETY: as in `admit_reply`.
    answer_of(unsafe { before_eb3_admit(rules.as_ptr(), rules.len()) })
}
