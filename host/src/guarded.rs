//! Slices next to pages that may not be accessed: a read or write of a byte outside a slice ends the process.
//!
//! Document 01, "The successor is built within a part of the lent buffer", and eb3.h: an operation reads and
//! writes its slices and nothing else. The given slices are in pages that may only be read. For Linux.

use std::ffi::{c_int, c_void};
use std::ptr;

use crate::calls::{ask, Call, Operations, Outcome};

extern "C" {
    fn mmap(
        at: *mut c_void,
        length: usize,
        protection: c_int,
        flags: c_int,
        file: c_int,
        offset: i64,
    ) -> *mut c_void;
    fn munmap(at: *mut c_void, length: usize) -> c_int;
    fn mprotect(at: *mut c_void, length: usize, protection: c_int) -> c_int;
}

const NONE: c_int = 0;
const READ: c_int = 1;
const READ_WRITE: c_int = 3;
/// Private, anonymous.
const MAP_FLAGS: c_int = 0x2 | 0x20;

/// At least the page size of any Linux.
const PAGE: usize = 65536;

/// At which end of its room a slice is placed: directly after or directly before a forbidden page.
#[derive(Clone, Copy, Debug, PartialEq, Eq)]
pub enum Edge {
    Front,
    Back,
}

/// Memory for one slice, with a forbidden page before and after it.
struct Room {
    base: *mut u8,
    length: usize,
}

impl Room {
    /// A room of at least n bytes.
    fn new(bytes: usize) -> Room {
        let length = bytes.div_ceil(PAGE) * PAGE;
        // SAFETY: mmap and mprotect are called as their manual pages say; the mapping belongs to this room.
        unsafe {
            let whole = mmap(ptr::null_mut(), length + 2 * PAGE, NONE, MAP_FLAGS, -1, 0);
            assert!(whole as isize != -1, "no room for a slice");
            let base = whole.cast::<u8>().add(PAGE);
            assert_eq!(0, mprotect(base.cast(), length, READ_WRITE));
            Room { base, length }
        }
    }

    fn protect(&mut self, protection: c_int) {
        // SAFETY: the pages belong to this room.
        assert_eq!(0, unsafe { mprotect(self.base.cast(), self.length, protection) });
    }

    /// Copies the bytes to one end of the room.
    fn put(&mut self, bytes: &[u8], edge: Edge) -> &mut [u8] {
        assert!(bytes.len() <= self.length, "a slice of {} bytes", bytes.len());
        let from = if edge == Edge::Front { 0 } else { self.length - bytes.len() };
        // SAFETY: the range is in pages that may be written, and is borrowed as long as the room is.
        let slice = unsafe { std::slice::from_raw_parts_mut(self.base.add(from), bytes.len()) };
        slice.copy_from_slice(bytes);
        slice
    }
}

impl Drop for Room {
    fn drop(&mut self) {
        // SAFETY: unmaps the whole mapping, which nothing borrows any more.
        unsafe { munmap(self.base.sub(PAGE).cast(), self.length + 2 * PAGE) };
    }
}

/// Rooms for the slices of any call, used again for each call.
pub struct Rooms {
    given: Vec<Room>,
    lent: Vec<Room>,
}

impl Rooms {
    /// Rooms for slices of at most n bytes.
    pub fn new(bytes: usize) -> Rooms {
        let rooms = |count| (0..count).map(|_| Room::new(bytes)).collect();
        // Present is given four slices, Run is lent five.
        Rooms { given: rooms(4), lent: rooms(5) }
    }

    /// Makes the call on slices at one end of their rooms.
    pub fn outcome(&mut self, by: &dyn Operations, call: &Call, edge: Edge) -> Outcome {
        let Rooms { given, lent } = self;
        let count = call.given.len();
        for (room, bytes) in given.iter_mut().zip(&call.given) {
            room.put(bytes, edge);
            room.protect(READ);
        }
        let slice = |(room, bytes): (&Room, &Vec<u8>)| {
            let from = if edge == Edge::Front { 0 } else { room.length - bytes.len() };
            // SAFETY: the bytes were copied there just now, into pages that may be read until the end.
            unsafe { std::slice::from_raw_parts(room.base.add(from).cast_const(), bytes.len()) }
        };
        let slices: Vec<&[u8]> = given.iter().zip(&call.given).map(slice).collect();
        let buffers = lent.iter_mut().zip(&call.lent);
        let mut buffers: Vec<&mut [u8]> = buffers.map(|(room, bytes)| room.put(bytes, edge)).collect();
        let reply = ask(by, call.operation, &slices, &mut buffers);
        let lent = buffers.iter().map(|buffer| buffer.to_vec()).collect();
        given[..count].iter_mut().for_each(|room| room.protect(READ_WRITE));
        Outcome { reply, lent }
    }
}
