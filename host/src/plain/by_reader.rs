//! Run's counts by card reader over cells: refusal 13, and the table that a run adds to.
//!
//! Document 02, K1: "Each number in Run's list [...] is followed by a word, its reader, 1 to 32. The host
//! lends a table of records, one per reader, each with visible, internal and refused counts, of 32 bits in
//! that order (for a C host 12 bytes, little-endian), and a run adds to it." and "Turned away: 13 reader, a
//! reader missing or outside 1 to 32 anywhere in the list or a table of fewer than 32 records".

use crate::refusal::READER;
use crate::{READERS, RECORD_BYTES};

const RECORDS: usize = READERS as usize;

/// The numbers of the list, each with its reader. Bytes after the last whole pair are dropped.
pub(super) fn pairs(list: &[u8]) -> impl Iterator<Item = (usize, usize)> + '_ {
    list.chunks_exact(4).map(|pair| {
        let word = |low: usize| usize::from(u16::from_le_bytes([pair[low], pair[low + 1]]));
        (word(0), word(2))
    })
}

/// Refusal 13, of the whole list and the table.
pub(super) fn judged(list: &[u8], table: &[u8]) -> Result<(), u8> {
    let missing = list.len() / 2 % 2 == 1;
    let outside = pairs(list).any(|(_, reader)| !(1..=RECORDS).contains(&reader));
    if missing || outside || table.len() / RECORD_BYTES < RECORDS {
        Err(READER)
    } else {
        Ok(())
    }
}

/// What a number was; the order is that of a record's counts.
#[derive(Clone, Copy)]
pub(super) enum Became {
    Visible,
    Internal,
    Refused,
}

/// The counts of each reader.
#[derive(Default)]
pub(super) struct Counts([[u64; 3]; RECORDS]);

impl Counts {
    #[inline]
    pub fn note(&mut self, reader: usize, became: Became) {
        self.0[reader - 1][became as usize] += 1;
    }

    /// Each count, summed over all readers.
    pub fn sums(&self) -> [u64; 3] {
        [0, 1, 2].map(|count| self.0.iter().map(|record| record[count]).sum())
    }

    /// Adds the counts to the table's records, modulo 4,294,967,296. Bytes after the readers' records keep
    /// their values.
    pub fn add_to(&self, table: &mut [u8]) {
        for (place, &count) in table.chunks_exact_mut(4).zip(self.0.iter().flatten()) {
            let before = u32::from_le_bytes([place[0], place[1], place[2], place[3]]);
            place.copy_from_slice(&before.wrapping_add(count as u32).to_le_bytes());
        }
    }
}
