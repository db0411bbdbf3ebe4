//! The engine as safe Rust functions over its C interface (`eb3.h`). Compiled only with the static library
//! (cfg `cabinet`).
//!
//! Document 01, "Operations" and "A C host on the controller calls every operation with numbers and byte
//! slices". Only the tests check these declarations against the engine's source.

#[cfg(before)]
pub mod before;
mod operations;
mod running;

pub use operations::{nothing, Cabinet};

use crate::{Answer, Sizes};

/// `eb3_sizes` of eb3.h, field by field.
#[repr(C)]
#[derive(Clone, Copy, Debug, PartialEq, Eq)]
pub struct AdmitReply {
    pub refusal: u32,
    pub cells: u32,
    pub reach: u32,
    pub breadth: u32,
    pub size: u32,
}

extern "C" {
    fn eb3_admit(rules: *const u8, rules_len: usize) -> AdmitReply;
}

/// Admit, as the C interface answers it.
pub fn admit_reply(rules: &[u8]) -> AdmitReply {
    // SAFETY: the engine only reads the slice, and keeps no pointer to it.
    unsafe { eb3_admit(rules.as_ptr(), rules.len()) }
}

/// Admit with length 0 and a null pointer, which eb3.h allows.
pub fn admit_nothing() -> AdmitReply {
    // SAFETY: no byte is read through a pointer that comes with length 0.
    unsafe { eb3_admit(std::ptr::null(), 0) }
}

/// Admit: the sizes, or the refusal's number.
pub fn admit(rules: &[u8]) -> Answer {
    answer_of(admit_reply(rules))
}

/// Panics, since it would be a fault of the engine, if a refusal has another field set or its number is not
/// one of Admit's.
fn answer_of(reply: AdmitReply) -> Answer {
    if reply.refusal == 0 {
        return Ok(Sizes {
            cells: reply.cells,
            reach: reply.reach,
            breadth: reply.breadth,
            size: reply.size,
        });
    }
    assert!((1..=8).contains(&reply.refusal), "admit answered refusal {}", reply.refusal);
    assert_eq!((0, 0, 0, 0), (reply.cells, reply.reach, reply.breadth, reply.size), "a refusal with sizes");
    Err(reply.refusal as u8)
}
