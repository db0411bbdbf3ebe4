//! Start, Count, Move and Present of the engine; Run is in `running`.
//!
//! Document 01, "Operations"; eb3.h: "`refusal` is EB3_DONE, or the number of a refusal: then the other
//! fields are 0". A reply of any other form is a fault of the engine, and fails the test with a panic here.

use super::running;
use crate::calls::Operations;
use crate::{Action, Counted, LentToRun, Made, Moved, Ran, Started};

/// `eb3_started`.
#[repr(C)]
struct StartReply {
    refusal: u32,
    size: u32,
}

/// `eb3_counted`.
#[repr(C)]
struct CountReply {
    refusal: u32,
    moves: u32,
}

/// `eb3_moved`.
#[repr(C)]
struct MoveReply {
    refusal: u32,
    size: u32,
    visible: u32,
    label: u32,
    arguments: u32,
    first: u32,
    second: u32,
}

extern "C" {
    fn eb3_start(
        rules: *const u8,
        rules_len: usize,
        term: *mut u8,
        term_len: usize,
        memory: *mut u8,
        memory_len: usize,
    ) -> StartReply;

    fn eb3_count(
        rules: *const u8,
        rules_len: usize,
        term: *const u8,
        term_len: usize,
        memory: *const u8,
        memory_len: usize,
    ) -> CountReply;

    fn eb3_move(
        rules: *const u8,
        rules_len: usize,
        term: *const u8,
        term_len: usize,
        memory: *const u8,
        memory_len: usize,
        number: u64,
        next_term: *mut u8,
        next_term_len: usize,
        next_memory: *mut u8,
        next_memory_len: usize,
    ) -> MoveReply;

    fn eb3_present(
        rules: *const u8,
        rules_len: usize,
        term: *const u8,
        term_len: usize,
        memory: *const u8,
        memory_len: usize,
        event: *const u8,
        event_len: usize,
        next_term: *mut u8,
        next_term_len: usize,
        next_memory: *mut u8,
        next_memory_len: usize,
    ) -> MoveReply;
}

/// `Err` with the number if it is not 0. Panics if it is not in the table, or if another field is set.
pub(super) fn refusal(number: u32, others: &[u64]) -> Result<(), u8> {
    if number == 0 {
        return Ok(());
    }
    assert!((1..=13).contains(&number), "there is no refusal {number}");
    assert!(others.iter().all(|&field| field == 0), "refusal {number} came with {others:?}");
    Err(number as u8)
}

impl MoveReply {
    fn moved(self) -> Moved {
        let MoveReply { size, visible, label, arguments, first, second, .. } = self;
        let fields = [size, visible, label, arguments, first, second];
        refusal(self.refusal, &fields.map(u64::from))?;
        if visible == 0 {
            assert_eq!([0; 4], [label, arguments, first, second], "an internal move with arguments");
            return Ok(Made { size, action: Action::Internal });
        }
        let right = visible == 1 && label < 64 && arguments <= 2 && first < 64 && second < 64;
        let unused = (arguments > 0 || first == 0) && (arguments > 1 || second == 0);
        assert!(right && unused, "a move with the fields {fields:?}");
        let arguments_of = [first as u16, second as u16];
        let action = Action::Visible { label: label as u16, count: arguments as u8, arguments: arguments_of };
        Ok(Made { size, action })
    }
}

/// The engine.
pub struct Cabinet;

/// The refusals of every operation called with length 0 and null pointers, which eb3.h allows.
pub fn nothing() -> Vec<u32> {
    let (given, lent) = (std::ptr::null(), std::ptr::null_mut());
    // SAFETY: no byte is read or written through a pointer that comes with length 0.
    unsafe {
        vec![
            eb3_start(given, 0, lent, 0, lent, 0).refusal,
            eb3_count(given, 0, given, 0, given, 0).refusal,
            eb3_move(given, 0, given, 0, given, 0, 0, lent, 0, lent, 0).refusal,
            eb3_present(given, 0, given, 0, given, 0, given, 0, lent, 0, lent, 0).refusal,
            running::eb3_run(given, 0, given, 0, lent, 0, lent, 0, lent, 0, lent, 0, lent, 0).refusal,
        ]
    }
}

// SAFETY of all calls: the pointers and lengths are those of these slices, the lent ones are borrowed
// exclusively, and the engine keeps no pointer.
impl Operations for Cabinet {
    fn start(&self, rules: &[u8], term: &mut [u8], memory: &mut [u8]) -> Started {
        let reply = unsafe {
            eb3_start(
                rules.as_ptr(),
                rules.len(),
                term.as_mut_ptr(),
                term.len(),
                memory.as_mut_ptr(),
                memory.len(),
            )
        };
        refusal(reply.refusal, &[u64::from(reply.size)])?;
        Ok(reply.size)
    }

    fn count(&self, rules: &[u8], term: &[u8], memory: &[u8]) -> Counted {
        let reply = unsafe {
            eb3_count(rules.as_ptr(), rules.len(), term.as_ptr(), term.len(), memory.as_ptr(), memory.len())
        };
        refusal(reply.refusal, &[u64::from(reply.moves)])?;
        Ok(reply.moves)
    }

    fn make_move(
        &self,
        rules: &[u8],
        term: &[u8],
        memory: &[u8],
        number: u64,
        next_term: &mut [u8],
        next_memory: &mut [u8],
    ) -> Moved {
        let reply = unsafe {
            eb3_move(
                rules.as_ptr(),
                rules.len(),
                term.as_ptr(),
                term.len(),
                memory.as_ptr(),
                memory.len(),
                number,
                next_term.as_mut_ptr(),
                next_term.len(),
                next_memory.as_mut_ptr(),
                next_memory.len(),
            )
        };
        reply.moved()
    }

    fn present(
        &self,
        rules: &[u8],
        term: &[u8],
        memory: &[u8],
        event: &[u8],
        next_term: &mut [u8],
        next_memory: &mut [u8],
    ) -> Moved {
        let reply = unsafe {
            eb3_present(
                rules.as_ptr(),
                rules.len(),
                term.as_ptr(),
                term.len(),
                memory.as_ptr(),
                memory.len(),
                event.as_ptr(),
                event.len(),
                next_term.as_mut_ptr(),
                next_term.len(),
                next_memory.as_mut_ptr(),
                next_memory.len(),
            )
        };
        reply.moved()
    }

    fn run(&self, rules: &[u8], list: &[u8], lent: LentToRun) -> Ran {
        running::run(rules, list, lent)
    }
}
