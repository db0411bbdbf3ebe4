//! Explores the states that a rule set reaches, through Start, Count and Move alone.
//!
//! Document 01, "Operations". A state is a term and a memory; two states are the same if their bytes are. A
//! host could search its rules in this way; as a test, it makes a great many calls of an implementation.

use std::collections::HashSet;
use std::hash::{DefaultHasher, Hash, Hasher};

use crate::calls::Operations;
use crate::Sizes;

/// The result of an exploration.
#[derive(Clone, Copy, Debug, Default, PartialEq, Eq)]
pub struct Explored {
    pub states: usize,
    /// A checksum over the states, to compare two explorations by.
    pub sum: u64,
    /// The number of moves, over all states.
    pub moves: usize,
    /// The number of states without a move.
    pub ends: usize,
    /// Whether every reachable state was visited, that is, whether there are fewer than the limit.
    pub whole: bool,
}

/// Explores the states of an admitted rule set, at most `most` of them.
pub fn explore(by: &dyn Operations, rules: &[u8], sizes: Sizes, most: usize) -> Explored {
    let (reach, cells) = (2 * sizes.reach as usize, 2 * sizes.cells as usize);
    let (mut term, mut memory) = (vec![0; reach], vec![0; cells]);
    let size = by.start(rules, &mut term, &mut memory).expect("buffers of the reported sizes");
    let start = (term[..2 * size as usize].to_vec(), memory.clone());
    let mut seen = HashSet::from([start.clone()]);
    let mut open = vec![start];
    let mut explored = Explored::default();
    while let Some((here, cells)) = open.pop() {
        let count = by.count(rules, &here, &cells).expect("a state that was reached");
        explored.moves += count as usize;
        explored.ends += usize::from(count == 0);
        for number in 0..u64::from(count) {
            let made = by.make_move(rules, &here, &cells, number, &mut term, &mut memory);
            let size = made.expect("a move below the count").size as usize;
            let next = (term[..2 * size].to_vec(), memory.clone());
            if seen.len() < most && seen.insert(next.clone()) {
                open.push(next);
            }
        }
    }
    explored.states = seen.len();
    explored.sum = seen.iter().fold(0, |sum, state| sum.wrapping_add(hash(state)));
    explored.whole = seen.len() < most;
    explored
}

fn hash(state: &(Vec<u8>, Vec<u8>)) -> u64 {
    let mut hasher = DefaultHasher::new();
    state.hash(&mut hasher);
    hasher.finish()
}
