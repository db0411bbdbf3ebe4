//! Start, Count, Move, Present and Run on bytes, over cells.
//!
//! Document 01, "Operations" and the table: refusals are tested in its order, 1 to 8, 10, 11, 9, 12, and in
//! Run 13 after 9 (document 02, K1); a refusal writes nothing. "Words past the reported size (Run: past G)
//! and cells past C keep their values. An odd last byte is ignored and kept; in a given term it is refused
//! 10, in an event 11."

use super::by_reader::{self, Became, Counts};
use super::decoded::Rules;
use super::evaluation::Cells;
use super::memory;
use super::moves::{Findings, Moves, Output, Packed};
use super::term::{self, words_of, Given, Term};
use super::unfolding;
use crate::refusal::{NOT_OFFERED, SPACE};
use crate::{Counted, LentToRun, Made, Moved, Ran, Started, Tally};

/// Writes main's unfolding and the cells at the start.
pub fn start(rules: &[u8], term: &mut [u8], memory: &mut [u8]) -> Started {
    let rules = Rules::admitted(rules)?;
    space(&rules, &[term], rules.sizes.reach as usize, &[memory])?;
    write(&unfolding::main_of(&rules).words, term);
    write(&memory::at_start(&rules), memory);
    Ok(rules.sizes.size)
}

/// Returns the number of moves.
pub fn count(rules: &[u8], term: &[u8], memory: &[u8]) -> Counted {
    let rules = Rules::admitted(rules)?;
    let given = term::given(&rules, term)?;
    space(&rules, &[], 0, &[memory])?;
    let cells = cells_of(&rules, memory);
    let mut findings = Findings::default();
    Ok(moves(&rules, &given.term, &cells, &mut findings).count() as u32)
}

/// Writes the successor of move `number` and the new memory.
pub fn make_move(
    rules: &[u8],
    term: &[u8],
    memory: &[u8],
    number: u64,
    next_term: &mut [u8],
    next_memory: &mut [u8],
) -> Moved {
    let rules = Rules::admitted(rules)?;
    let given = term::given(&rules, term)?;
    space(&rules, &[next_term], given.reach, &[memory, next_memory])?;
    let cells = cells_of(&rules, memory);
    let mut findings = Findings::default();
    let mut moves = moves(&rules, &given.term, &cells, &mut findings);
    if number >= moves.count() as u64 {
        return Err(NOT_OFFERED);
    }
    Ok(made(&rules, &moves, number as usize, next_term, next_memory))
}

/// Makes the move with the smallest number whose action is the event.
pub fn present(
    rules: &[u8],
    term: &[u8],
    memory: &[u8],
    event: &[u8],
    next_term: &mut [u8],
    next_memory: &mut [u8],
) -> Moved {
    let rules = Rules::admitted(rules)?;
    let Given { term, reach } = term::given(&rules, term)?;
    let event = term::event(&rules, event)?;
    space(&rules, &[next_term], reach, &[memory, next_memory])?;
    let cells = cells_of(&rules, memory);
    let mut findings = Findings::default();
    let mut moves = moves(&rules, &term, &cells, &mut findings);
    let number = moves.list().iter().position(|&action| action == event).ok_or(NOT_OFFERED)?;
    Ok(made(&rules, &moves, number, next_term, next_memory))
}

/// Takes the moves of a list of numbers, from the start, and counts them by reader. The scratch buffers are
/// not used; only their lengths are tested.
pub fn run(rules: &[u8], list: &[u8], lent: LentToRun) -> Ran {
    let [table, term, memory, spare_term, spare_memory] = lent;
    let rules = Rules::admitted(rules)?;
    let reach = rules.sizes.reach as usize;
    space(&rules, &[term, spare_term], reach, &[memory, spare_memory])?;
    by_reader::judged(list, table)?;
    let mut state = State { term: unfolding::main_of(&rules), cells: memory::at_start(&rules) };
    let mut next = State { term: Term::with_room(reach), cells: Vec::with_capacity(rules.cells()) };
    let (mut findings, mut counts) = (Findings::default(), Counts::default());
    for (number, reader) in by_reader::pairs(list) {
        let mut moves = moves(&rules, &state.term, &state.cells, &mut findings);
        if number >= moves.count() {
            counts.note(reader, Became::Refused);
            continue;
        }
        next.term.words.clear();
        let action = moves.build(0, number, &mut next.term);
        if action == Packed::INTERNAL {
            counts.note(reader, Became::Internal);
            next.cells.clone_from(&state.cells);
        } else {
            counts.note(reader, Became::Visible);
            memory::renew(&rules, action, &state.cells, &mut next.cells);
        }
        std::mem::swap(&mut state, &mut next);
    }
    counts.add_to(table);
    let size = state.term.words.len();
    write(&state.term.words, term);
    term[2 * size..2 * reach].fill(0);
    write(&state.cells, memory);
    let [visible, internal, refused] = counts.sums();
    Ok(Tally { size: size as u64, visible, internal, refused })
}

/// The state of a run: a term and a memory.
struct State {
    term: Term,
    cells: Vec<u16>,
}

/// Refusal 9: every term buffer must have room for `reach` words, every memory for C cells.
fn space(rules: &Rules, terms: &[&[u8]], reach: usize, memories: &[&[u8]]) -> Result<(), u8> {
    let room = |buffers: &[&[u8]], words: usize| buffers.iter().all(|buffer| buffer.len() / 2 >= words);
    if room(terms, reach) && room(memories, rules.cells()) {
        Ok(())
    } else {
        Err(SPACE)
    }
}

/// The first C cells of a memory. Any word is allowed; 65,535 is undefined.
fn cells_of(rules: &Rules, memory: &[u8]) -> Vec<u16> {
    words_of(&memory[..2 * rules.cells()])
}

/// The moves of a term. Guards read the cells before the move.
fn moves<'a>(rules: &'a Rules, term: &'a Term, cells: &'a [u16], findings: &'a mut Findings) -> Moves<'a> {
    Moves { term, cells: Cells { layout: rules.layout(), now: cells, before: cells }, findings }
}

fn write(words: &[u16], buffer: &mut [u8]) {
    for (place, word) in buffer.chunks_exact_mut(2).zip(words) {
        place.copy_from_slice(&word.to_le_bytes());
    }
}

/// Writes the successor and the new memory of move `number`, which exists. An internal move changes no cell.
fn made(rules: &Rules, moves: &Moves, number: usize, next_term: &mut [u8], next_memory: &mut [u8]) -> Made {
    let mut lent = Lent { buffer: next_term, words: 0 };
    let action = moves.build(0, number, &mut lent);
    let size = lent.words as u32;
    let old = moves.cells.now;
    if action == Packed::INTERNAL {
        write(old, next_memory);
    } else {
        let mut new = Vec::with_capacity(old.len());
        memory::renew(rules, action, old, &mut new);
        write(&new, next_memory);
    }
    Made { size, action: action.action() }
}

/// A lent buffer, and the number of words written to it so far.
struct Lent<'a> {
    buffer: &'a mut [u8],
    words: usize,
}

impl Lent<'_> {
    fn push(&mut self, words: &[u16]) {
        write(words, &mut self.buffer[2 * self.words..2 * (self.words + words.len())]);
        self.words += words.len();
    }
}

impl Output for Lent<'_> {
    fn open(&mut self, head: &[u16]) -> usize {
        self.push(head);
        0
    }

    fn copy(&mut self, term: &Term, at: usize) {
        self.push(&term.words[at..term.after(at)]);
    }

    fn close(&mut self, _: usize) {}
}
