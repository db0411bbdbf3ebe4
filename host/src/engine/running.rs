//! Run of the engine.
//!
//! Document 01, "Operations", and document 02, K1; `eb3_run` of eb3.h.

use super::operations::refusal;
use crate::{LentToRun, Ran, Tally};

/// `eb3_ran`.
#[repr(C)]
pub(super) struct RunReply {
    pub refusal: u32,
    size: u64,
    visible: u64,
    internal: u64,
    refused: u64,
}

extern "C" {
    pub(super) fn eb3_run(
        rules: *const u8,
        rules_len: usize,
        list: *const u8,
        list_len: usize,
        table: *mut u8,
        table_len: usize,
        term: *mut u8,
        term_len: usize,
        memory: *mut u8,
        memory_len: usize,
        spare_term: *mut u8,
        spare_term_len: usize,
        spare_memory: *mut u8,
        spare_memory_len: usize,
    ) -> RunReply;
}

/// Run: the last term's size and the three counts, or the refusal's number.
pub(super) fn run(rules: &[u8], list: &[u8], lent: LentToRun) -> Ran {
    let [table, term, memory, spare_term, spare_memory] = lent;
    // SAFETY: the pointers and lengths are those of these slices, the lent ones are borrowed exclusively, and
    // the engine keeps no pointer.
    let reply = unsafe {
        eb3_run(
            rules.as_ptr(),
            rules.len(),
            list.as_ptr(),
            list.len(),
            table.as_mut_ptr(),
            table.len(),
            term.as_mut_ptr(),
            term.len(),
            memory.as_mut_ptr(),
            memory.len(),
            spare_term.as_mut_ptr(),
            spare_term.len(),
            spare_memory.as_mut_ptr(),
            spare_memory.len(),
        )
    };
    let RunReply { size, visible, internal, refused, .. } = reply;
    refusal(reply.refusal, &[size, visible, internal, refused])?;
    Ok(Tally { size, visible, internal, refused })
}
