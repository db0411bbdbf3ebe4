//! Running terms of a rule set: those that it reaches, by random walks, and other well-formed ones.
//!
//! Document 01, "Unfolding, size and breadth", and refusal 10: a given term need not be one that the rule set
//! reaches, and done may occur anywhere in it.

use super::random::Random;
use super::well_formed::running_condition;
use crate::rules::RuleSet;
use crate::{plain, words_of, Action, Made, Sizes};

/// A term and a memory, as bytes.
#[derive(Clone, Debug)]
pub struct State {
    pub term: Vec<u8>,
    pub memory: Vec<u8>,
}

/// The start state of an admitted rule set.
pub fn start(file: &[u8], sizes: Sizes) -> State {
    let mut term = vec![0; 2 * sizes.reach as usize];
    let mut memory = vec![0; 2 * sizes.cells as usize];
    let size = plain::start(file, &mut term, &mut memory).expect("the buffers have the reported sizes");
    term.truncate(2 * size as usize);
    State { term, memory }
}

/// The state after move `number`, which exists. No move enlarges a term's reach beyond main's.
pub fn after(file: &[u8], sizes: Sizes, state: &State, number: u64) -> State {
    let mut term = vec![0; 2 * sizes.reach as usize];
    let mut memory = vec![0; 2 * sizes.cells as usize];
    let made = plain::make_move(file, &state.term, &state.memory, number, &mut term, &mut memory);
    term.truncate(2 * made.expect("a move below the count").size as usize);
    State { term, memory }
}

/// All moves of a well-formed term, made in buffers as large as its reach: the actions and the states after
/// them.
pub fn moves(rules: &RuleSet, file: &[u8], state: &State) -> Vec<(Action, State)> {
    let (_, reach, _) = measures(rules, &words_of(&state.term));
    let count = plain::count(file, &state.term, &state.memory).expect("a right term");
    let next = |number| {
        let (mut term, mut memory) = (vec![0; 2 * reach as usize], vec![0; state.memory.len()]);
        let made = plain::make_move(file, &state.term, &state.memory, number, &mut term, &mut memory);
        let Made { size, action } = made.expect("a number below the count");
        term.truncate(2 * size as usize);
        (action, State { term, memory })
    };
    (0..u64::from(count)).map(next).collect()
}

/// The states of a random walk of at most `steps` moves, the start included. Where there is a choice, later
/// moves are more likely than the first, which often ends a star.
pub fn walk(random: &mut Random, file: &[u8], sizes: Sizes, steps: usize) -> Vec<State> {
    let mut states = vec![start(file, sizes)];
    for _ in 0..steps {
        let state = states.last().expect("the start at least");
        let moves = plain::count(file, &state.term, &state.memory).expect("a state of a walk");
        if moves == 0 {
            break;
        }
        let number = random.below(moves as usize).max(random.below(moves as usize));
        let next = after(file, sizes, state, number as u64);
        states.push(next);
    }
    states
}

/// A random well-formed running term of the rule set, of at most the given depth and within the limits 7 and
/// 8.
pub fn arbitrary(random: &mut Random, rules: &RuleSet, depth: u32) -> Vec<u16> {
    loop {
        let mut making = Making { random, rules, words: Vec::new() };
        making.term(depth);
        let words = making.words;
        let (_, reach, breadth) = measures(rules, &words);
        if reach <= u64::from(crate::MOST_REACH) && breadth <= u64::from(crate::MOST_BREADTH) {
            return words;
        }
    }
}

/// The words of a random action of the rule set.
pub fn action(random: &mut Random, rules: &RuleSet) -> Vec<u16> {
    let mut making = Making { random, rules, words: Vec::new() };
    making.action();
    making.words
}

/// A running term while it is generated.
struct Making<'a> {
    random: &'a mut Random,
    rules: &'a RuleSet,
    words: Vec<u16>,
}

impl Making<'_> {
    fn term(&mut self, depth: u32) {
        match if depth == 0 { self.random.below(4) } else { self.random.below(16) } {
            0 => self.words.push(20),
            1 => self.words.push(30),
            2..=4 => self.action(),
            5..=7 => self.operands(&[22], 2, depth),
            8 | 9 => self.operands(&[23], 2, depth),
            10 => self.operands(&[24], 1, depth),
            11..=13 => {
                let mask = self.mask();
                self.operands(&[25, mask[0], mask[1], mask[2], mask[3]], 2, depth);
            }
            _ => {
                self.words.push(26);
                let condition_depth = self.random.below(4) as u32;
                running_condition(self.random, self.rules, condition_depth).spell(&mut self.words);
                self.term(depth - 1);
            }
        }
    }

    fn operands(&mut self, head: &[u16], count: usize, depth: u32) {
        self.words.extend_from_slice(head);
        for _ in 0..count {
            self.term(depth - 1);
        }
    }

    /// Mostly one of the first two labels with the first elements: a mask has an effect only if equal actions
    /// occur on both sides.
    fn action(&mut self) {
        let few = self.random.chance(60);
        let most = if few { self.rules.labels.len().min(2) } else { self.rules.labels.len() };
        let label = self.random.below(most);
        self.words.extend([21, label as u16]);
        for &domain in &self.rules.labels[label] {
            let elements = usize::from(self.rules.domains[usize::from(domain)]);
            self.words.push(1);
            let element = self.random.below(if few { elements.min(2) } else { elements });
            self.words.push(element as u16);
        }
    }

    /// A third of the masks are zero; each of the others contains each label with probability 1/2.
    fn mask(&mut self) -> [u16; 4] {
        let mut mask = [0; 4];
        if self.random.chance(66) {
            for label in 0..self.rules.labels.len() {
                mask[label / 16] |= (self.random.below(2) as u16) << (label % 16);
            }
        }
        mask
    }
}

/// Size, reach and breadth of a well-formed running term by document 01's definitions, clause by clause.
pub fn measures(rules: &RuleSet, words: &[u16]) -> (u64, u64, u64) {
    match words[0] {
        20 => (1, 1, 1),
        30 => (1, 1, 0),
        21 => {
            let size = 2 + 2 * rules.labels[usize::from(words[1])].len() as u64;
            (size, size, 1)
        }
        24 => {
            let (size, reach, breadth) = measures(rules, &words[1..]);
            (1 + size, 2 + reach + size, breadth.saturating_add(1))
        }
        26 => {
            let condition = condition_size(&words[1..]);
            let (size, reach, breadth) = measures(rules, &words[1 + condition..]);
            let whole = 1 + condition as u64 + size;
            (whole, whole.max(reach), breadth)
        }
        code => {
            let head = if code == 25 { 5 } else { 1 };
            let (left, left_reach, l) = measures(rules, &words[head..]);
            let (right, right_reach, r) = measures(rules, &words[head + left as usize..]);
            let whole = head as u64 + left + right;
            let sum = l.saturating_add(r);
            match code {
                22 => (whole, (1 + left_reach + right).max(right_reach), l.max(r)),
                23 => (whole, whole.max(left_reach).max(right_reach), sum),
                _ => {
                    let pairs = if words[1..5] == [0; 4] { 0 } else { l.saturating_mul(r) };
                    (whole, 5 + left_reach + right_reach, sum.saturating_add(pairs).max(1))
                }
            }
        }
    }
}

/// How often done occurs in a well-formed running term.
pub fn dones(rules: &RuleSet, words: &[u16]) -> usize {
    let (mut place, mut to_come, mut dones) = (0, 1usize, 0);
    while to_come > 0 {
        to_come -= 1;
        let (here, operands) = match words[place] {
            20 => (1, 0),
            21 => (2 + 2 * rules.labels[usize::from(words[place + 1])].len(), 0),
            22 | 23 => (1, 2),
            24 => (1, 1),
            25 => (5, 2),
            26 => (1 + condition_size(&words[place + 1..]), 1),
            _ => {
                dones += 1;
                (1, 0)
            }
        };
        place += here;
        to_come += operands;
    }
    dones
}

/// The number of words of the condition that begins at the first word.
fn condition_size(words: &[u16]) -> usize {
    let (mut place, mut to_come) = (0, 1usize);
    while to_come > 0 {
        to_come -= 1;
        let (here, operands) = match words[place] {
            0 | 13 => (1, 0),
            1 => (2, 0),
            5 => (1, 3),
            6 => (2, 1),
            12 => (1, 1),
            _ => (1, 2),
        };
        place += here;
        to_come += operands;
    }
    place
}
