//! Lists for Run, right and wrong, in which each number is followed by its card reader; and the records of
//! Run's table.
//!
//! Document 02, K1: "Each number in Run's list, not the printing program's, is followed by a word, its
//! reader, 1 to 32." and refusal 13.

use super::calls::numbers;
use super::random::Random;
use crate::{bytes_of, words_of, READERS, RECORD_BYTES, TABLE_BYTES};

/// Words that are not readers; the low byte of some of them is.
pub const NO_READERS: [u16; 8] = [0, 33, 34, 256, 257, 288, 8192, 65535];

/// `count` move numbers, each with a reader, and sometimes half a word after them.
pub fn list(random: &mut Random, count: usize) -> Vec<u8> {
    let numbers = numbers(random, count);
    let mut list = at_any(random, &words_of(&numbers));
    list.extend(&numbers[2 * count..]);
    list
}

/// The numbers with random readers: readers 1 to 4 and 32 occur most.
pub fn at_any(random: &mut Random, numbers: &[u16]) -> Vec<u8> {
    let mut reader = || match random.below(4) {
        0 => *random.pick(&[1, READERS]),
        1 => random.between(1, 4),
        _ => random.between(1, READERS),
    };
    of_pairs(numbers.iter().map(|&number| (number, reader())))
}

/// The numbers with the readers 1 to 32 in rotation.
pub fn by_turns(numbers: &[u16]) -> Vec<u8> {
    of_pairs(numbers.iter().copied().zip((1..=READERS).cycle()))
}

/// Pairs of a number and its reader, in the bytes that Run takes.
pub fn of_pairs(pairs: impl Iterator<Item = (u16, u16)>) -> Vec<u8> {
    bytes_of(&pairs.flat_map(|(number, reader)| [number, reader]).collect::<Vec<u16>>())
}

/// The list with another reader at one of its numbers.
pub fn with_reader(list: &[u8], number: usize, reader: u16) -> Vec<u8> {
    let mut list = list.to_vec();
    list[4 * number + 2..4 * number + 4].copy_from_slice(&reader.to_le_bytes());
    list
}

/// Lists that are refused 13, each with a name for what is wrong, made of `count` right pairs, at least one:
/// a word that is not a reader at the first, a middle and the last place, or a number without a reader at the
/// end.
pub fn wrong(random: &mut Random, count: usize) -> Vec<(String, Vec<u8>)> {
    let numbers = words_of(&numbers(random, count));
    let right = at_any(random, &numbers);
    let mut lists = Vec::new();
    for place in [0, count / 2, count - 1] {
        for reader in NO_READERS {
            lists.push((format!("reader {reader} at number {place}"), with_reader(&right, place, reader)));
        }
    }
    for after in [&[1, 0][..], &[1, 0, 1], &[0, 0], &[33, 0, 0]] {
        lists.push((format!("{after:?} after the last pair"), [&right[..], after].concat()));
    }
    lists
}

/// The readers' records in a table, reader 1's first.
pub fn records(table: &[u8]) -> Vec<[u32; 3]> {
    let record = |record: &[u8]| {
        [0, 4, 8].map(|at| u32::from_le_bytes([record[at], record[at + 1], record[at + 2], record[at + 3]]))
    };
    table[..TABLE_BYTES].chunks_exact(RECORD_BYTES).map(record).collect()
}

/// What was added to each reader's record.
pub fn increases(before: &[u8], after: &[u8]) -> Vec<[u32; 3]> {
    let pairs = records(before).into_iter().zip(records(after));
    pairs.map(|(before, after)| [0, 1, 2].map(|count| after[count].wrapping_sub(before[count]))).collect()
}
