//! Run by the history machine.
//!
//! Document 01, "Operations"; document 02, K1: "Every reader's increase equals, modulo 4,294,967,296, what
//! the history machine counts at that reader's numbers; records past the thirty-second keep their values."
//! The machine runs the whole list first; then each count of each reader is computed from what it counted, as
//! document 02 says.

use super::{rule_set, spelled, Machine};
use crate::refusal::{READER, SPACE};
use crate::{words_of, LentToRun, Ran, Tally};

/// The machine's three counts before each number of the list, and at its end.
type Counted = Vec<[u64; 3]>;

/// Run, with the same answer and the same bytes as every implementation.
pub fn run(rules: &[u8], list: &[u8], lent: LentToRun) -> Ran {
    let [table, term, memory, spare_term, spare_memory] = lent;
    let (sizes, rules) = rule_set(rules)?;
    let (reach, cells) = (2 * sizes.reach as usize, 2 * sizes.cells as usize);
    if term.len().min(spare_term.len()) < reach || memory.len().min(spare_memory.len()) < cells {
        return Err(SPACE);
    }
    let list = words_of(list);
    let numbers: Vec<u16> = list.iter().copied().step_by(2).collect();
    let readers: Vec<u16> = list.iter().copied().skip(1).step_by(2).collect();
    let outside = readers.iter().any(|&reader| reader == 0 || reader > 32);
    if readers.len() < numbers.len() || outside || table.len() < 32 * 12 {
        return Err(READER);
    }
    let mut machine = Machine::new(&rules);
    let mut counted = vec![machine.tally.counts()];
    for number in numbers {
        machine.feed(number);
        counted.push(machine.tally.counts());
    }
    add(&readers, &counted, table);
    let mut words = spelled(&machine.term);
    let size = words.len() as u64;
    words.resize(sizes.reach as usize, 0);
    for (words, buffer) in [(words, term), (machine.values(), memory)] {
        for (place, word) in words.into_iter().enumerate() {
            buffer[2 * place..2 * place + 2].copy_from_slice(&word.to_le_bytes());
        }
    }
    Ok(Tally { size, ..machine.tally })
}

/// Adds to each count of each reader's record what the machine counted at that reader's numbers.
fn add(readers: &[u16], counted: &Counted, table: &mut [u8]) {
    for (reader, count) in (1..=32).flat_map(|reader| [(reader, 0), (reader, 1), (reader, 2)]) {
        let numbers = (0..readers.len()).filter(|&number| readers[number] == reader);
        let increase: u64 = numbers.map(|number| counted[number + 1][count] - counted[number][count]).sum();
        let place = 12 * (usize::from(reader) - 1) + 4 * count;
        let bytes: &mut [u8; 4] = (&mut table[place..place + 4]).try_into().expect("four bytes");
        let sum = (u64::from(u32::from_le_bytes(*bytes)) + increase) % 4_294_967_296;
        *bytes = (sum as u32).to_le_bytes();
    }
}
