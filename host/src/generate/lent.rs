//! Buffers to lend, and memories to give.
//!
//! Document 01, refusal 9 and "Words past the reported size (Run: past G) and cells past C keep their values.
//! An odd last byte is ignored and kept"; document 02, K1: "Before a run the table may hold anything."
//! Buffers are filled with random bytes, so that a test can see what was kept.

use super::random::Random;
use crate::{Sizes, TABLE_BYTES};

/// The length of a buffer, compared with the words that it must have room for.
#[derive(Clone, Copy, Debug, PartialEq, Eq)]
pub enum Fit {
    /// No bytes.
    Empty,
    /// One word too short.
    WordShort,
    /// One byte too short: the last word is cut.
    ByteShort,
    Exact,
    /// One byte more, which is ignored and kept.
    Odd,
    /// Some words and perhaps one byte more, which must be kept.
    Longer,
}

pub const FITS: [Fit; 6] = [Fit::Empty, Fit::WordShort, Fit::ByteShort, Fit::Exact, Fit::Odd, Fit::Longer];

impl Fit {
    /// The length in bytes, for a buffer of n words.
    fn bytes(self, random: &mut Random, words: usize) -> usize {
        match self {
            Fit::Empty => 0,
            Fit::WordShort => (2 * words).saturating_sub(2),
            Fit::ByteShort => (2 * words).saturating_sub(1),
            Fit::Exact => 2 * words,
            Fit::Odd => 2 * words + 1,
            Fit::Longer => 2 * words + 2 + random.below(60),
        }
    }

    /// Whether the buffer has room for n words.
    pub fn suffices(self, words: usize) -> bool {
        words == 0 || matches!(self, Fit::Exact | Fit::Odd | Fit::Longer)
    }

    pub fn buffer(self, random: &mut Random, words: usize) -> Vec<u8> {
        let bytes = self.bytes(random, words);
        noise(random, bytes)
    }
}

/// A random fit that has room.
pub fn roomy(random: &mut Random) -> Fit {
    *random.pick(&[Fit::Exact, Fit::Odd, Fit::Longer])
}

pub fn noise(random: &mut Random, bytes: usize) -> Vec<u8> {
    (0..bytes).map(|_| random.number() as u8).collect()
}

/// A memory of n cells, mostly small numbers, some undefined, some the largest numbers, some any word; of the
/// length that the fit gives.
pub fn memory(random: &mut Random, cells: usize, fit: Fit) -> Vec<u8> {
    let mut bytes = fit.buffer(random, cells);
    for cell in bytes.chunks_exact_mut(2) {
        let word = match random.below(8) {
            0..=3 => random.between(0, 3),
            4 => 65535,
            5 => 65534,
            6 => random.between(0, 70),
            _ => random.between(0, 65535),
        };
        cell.copy_from_slice(&word.to_le_bytes());
    }
    bytes
}

/// A table for Run, of the length that the fit gives: random counts, many of them close to 4,294,967,295.
pub fn table(random: &mut Random, fit: Fit) -> Vec<u8> {
    let mut bytes = fit.buffer(random, TABLE_BYTES / 2);
    for count in bytes.chunks_exact_mut(4) {
        if random.chance(40) {
            count.copy_from_slice(&(u32::MAX - random.below(3) as u32).to_le_bytes());
        }
    }
    bytes
}

/// The buffers for Run, each of the length that its fit gives.
pub fn for_run(random: &mut Random, sizes: Sizes, fits: [Fit; 5]) -> [Vec<u8>; 5] {
    let [of_table, term, memory, spare_term, spare_memory] = fits;
    let (reach, cells) = (sizes.reach as usize, sizes.cells as usize);
    [
        table(random, of_table),
        term.buffer(random, reach),
        memory.buffer(random, cells),
        spare_term.buffer(random, reach),
        spare_memory.buffer(random, cells),
    ]
}

/// The buffers for Run, each with room.
pub fn roomy_for_run(random: &mut Random, sizes: Sizes) -> [Vec<u8>; 5] {
    let fits = [(); 5].map(|()| roomy(random));
    for_run(random, sizes, fits)
}

/// The buffers for Run for a rule set of these sizes, of the exact lengths, filled with zeros.
pub fn zeros_for_run(sizes: Sizes) -> [Vec<u8>; 5] {
    let (reach, cells) = (2 * sizes.reach as usize, 2 * sizes.cells as usize);
    [TABLE_BYTES, reach, cells, reach, cells].map(|bytes| vec![0; bytes])
}
