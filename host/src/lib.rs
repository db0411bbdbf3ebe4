//! The host side of the cabinet engine: rule sets as trees and as block files; a plain reader and
//! interpreter, written independently of the engine; generators of right and faulty rule sets and calls; and,
//! if the static library is linked, the engine itself.
//!
//! Document 01 is the scope (`01-scope.md`), document 02 has the later requests (`02-change-requests.md`);
//! `docs/DECISIONS.md` says how their sentences are read. Each module names the paragraph that it implements.

pub mod blocks;
pub mod calls;
#[cfg(cabinet)]
pub mod engine;
pub mod examples;
pub mod explore;
pub mod generate;
pub mod guarded;
pub mod listing;
pub mod machines;
pub mod met;
pub mod plain;
pub mod plot;
pub mod rules;
pub mod unfold;

/// What Admit returns (document 01, "Operations"): C, G, W and the start term's size.
#[derive(Clone, Copy, Debug, PartialEq, Eq)]
pub struct Sizes {
    /// C: the number of cells of a memory.
    pub cells: u32,
    /// G: the number of words of a term buffer.
    pub reach: u32,
    /// W: the most moves that a term has.
    pub breadth: u32,
    /// The number of words of the start term.
    pub size: u32,
}

/// The sizes, or the number of a refusal.
pub type Answer = Result<Sizes, u8>;

/// The number of words of the start term, or the number of a refusal.
pub type Started = Result<u32, u8>;

/// The number of moves, or the number of a refusal.
pub type Counted = Result<u32, u8>;

/// The action of a move.
#[derive(Clone, Copy, Debug, PartialEq, Eq)]
pub enum Action {
    Internal,
    /// A label and `count` arguments; the unused ones are 0.
    Visible {
        label: u16,
        count: u8,
        arguments: [u16; 2],
    },
}

impl Action {
    /// The action as the words of a running leaf, code 20 or 21.
    pub fn words(self) -> Vec<u16> {
        match self {
            Action::Internal => vec![20],
            Action::Visible { label, count, arguments } => {
                let arguments = arguments[..usize::from(count)].iter().flat_map(|&value| [1, value]);
                [21, label].into_iter().chain(arguments).collect()
            }
        }
    }
}

/// What Move and Present return: the number of words of the successor, and the action.
#[derive(Clone, Copy, Debug, PartialEq, Eq)]
pub struct Made {
    pub size: u32,
    pub action: Action,
}

/// What a move made, or the number of a refusal.
pub type Moved = Result<Made, u8>;

/// What Run returns: the number of words of the last term, and how many numbers were visible moves, internal
/// ones and refused.
#[derive(Clone, Copy, Debug, Default, PartialEq, Eq)]
pub struct Tally {
    pub size: u64,
    pub visible: u64,
    pub internal: u64,
    pub refused: u64,
}

impl Tally {
    /// The three counts, in the order of a record of Run's table.
    pub fn counts(self) -> [u64; 3] {
        [self.visible, self.internal, self.refused]
    }
}

/// A run's size and counts, or the number of a refusal.
pub type Ran = Result<Tally, u8>;

/// The buffers that Run is lent, in the order of eb3.h: the table, a term, a memory, and as scratch a term
/// and a memory.
pub type LentToRun<'a> = [&'a mut [u8]; 5];

/// The refusals, named as in document 01's table and in document 02's requests.
pub mod refusal {
    pub const LENGTH: u8 = 1;
    pub const BLOCK: u8 = 2;
    pub const EDITION: u8 = 3;
    pub const FORM: u8 = 4;
    pub const REFERENCE: u8 = 5;
    pub const KIND: u8 = 6;
    pub const SIZE: u8 = 7;
    pub const BREADTH: u8 = 8;
    pub const SPACE: u8 = 9;
    pub const TERM: u8 = 10;
    pub const STRANGER: u8 = 11;
    pub const NOT_OFFERED: u8 = 12;
    pub const READER: u8 = 13;
}

/// The largest reach G that main may have.
pub const MOST_REACH: u32 = 8192;

/// The largest breadth W that main may have.
pub const MOST_BREADTH: u32 = 65535;

/// Card readers have the numbers 1 to this one (request K1).
pub const READERS: u16 = 32;

/// Bytes of a record of Run's table: three counts of 32 bits.
pub const RECORD_BYTES: usize = 12;

/// Bytes of the records of all readers; a table may be longer.
pub const TABLE_BYTES: usize = RECORD_BYTES * READERS as usize;

/// Words as bytes, little-endian.
pub fn bytes_of(words: &[u16]) -> Vec<u8> {
    words.iter().flat_map(|word| word.to_le_bytes()).collect()
}

/// Bytes as words; an odd last byte is dropped.
pub fn words_of(bytes: &[u8]) -> Vec<u16> {
    bytes.chunks_exact(2).map(|pair| u16::from_le_bytes([pair[0], pair[1]])).collect()
}

/// Runs the work on a stack of 256 MiB. A stream can nest 16,250 deep, and the trees here are built, spelled
/// and dropped recursively, for which the 2 MiB of a test's thread are not enough.
pub fn on_large_stack<T: Send>(work: impl FnOnce() -> T + Send) -> T {
    on_stack_of(256 << 20, work)
}

/// Runs the work on a stack of the given size. Memory is only taken for the part of the stack that is used.
pub fn on_stack_of<T: Send>(bytes: usize, work: impl FnOnce() -> T + Send) -> T {
    std::thread::scope(|scope| {
        let thread = std::thread::Builder::new().stack_size(bytes).spawn_scoped(scope, work);
        thread
            .expect("a thread with a large stack")
            .join()
            .unwrap_or_else(|panic| std::panic::resume_unwind(panic))
    })
}
