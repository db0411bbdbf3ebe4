//! States that nest as deep as the limits allow, with their rule sets: the worst cases for the recursion of
//! Start, Count, Move and Present.
//!
//! Document 01 limits nesting only by a running term's reach and breadth and, for the expressions of
//! functions, by the stream's length. (`nesting` has the worst cases for Admit.) To make these cases takes a
//! large stack, too.

use super::running::{self, State};
use super::{lent, nesting, readers};
use crate::blocks::{blocks_for, file_of, MOST_WORDS};
use crate::calls::{Call, Operation};
use crate::{bytes_of, examples, plain, Sizes, MOST_REACH, TABLE_BYTES};

/// A worst case: its name, its depth in codes, its rule set and its state.
#[derive(Clone, Debug)]
pub struct Deep {
    pub name: &'static str,
    pub depth: usize,
    pub file: Vec<u8>,
    pub sizes: Sizes,
    pub state: State,
}

/// A nest: the words that open a level, the innermost words, the words that close a level.
type Nest<'a> = (&'a [u16], &'a [u16], &'a [u16]);

fn spelled((open, middle, close): Nest, depth: usize) -> Vec<u16> {
    [&open.repeat(depth), middle, &close.repeat(depth)].concat()
}

/// The most levels that fit in n words.
fn levels((open, middle, close): Nest, words: usize) -> usize {
    (words - middle.len()) / (open.len() + close.len())
}

/// A term for the key cabinet.
fn given(name: &'static str, depth: usize, words: &[u16]) -> Deep {
    let file = examples::key_cabinet(2).file();
    let sizes = plain::admit(&file).expect("the key cabinet is admitted");
    Deep { name, depth, file, sizes, state: State { term: bytes_of(words), memory: vec![0; 4] } }
}

/// Nested terms.
fn term(name: &'static str, nest: Nest) -> Deep {
    let depth = levels(nest, MOST_REACH as usize);
    given(name, depth, &spelled(nest, depth))
}

/// Nested conditions in the guard of an internal step; whether it holds depends on the depth.
fn guard(name: &'static str, nest: Nest) -> Deep {
    let depth = levels(nest, MOST_REACH as usize - 2);
    given(name, depth, &[&[26], &spelled(nest, depth)[..], &[20]].concat())
}

/// Nested nots of an even depth, so that the guard holds.
fn even_nots() -> Deep {
    let depth = MOST_REACH as usize - 4;
    given(
        "not in a guard that holds",
        depth,
        &[&[26], &spelled((&[12], &[13], &[]), depth)[..], &[20]].concat(),
    )
}

/// Nested stars. A star's reach exceeds the sum of its inside's reach and size, so reach grows with the
/// square of the depth: 125 is the most within the limit.
fn stars() -> Deep {
    given("stars", 125, &spelled((&[24], &[20], &[]), 125))
}

/// A rule set with one domain of one element, one label, and the functions and processes that `rest` spells,
/// in as many blocks as it takes; the given term is an internal step.
fn stream(name: &'static str, depth: usize, rest: &[u16]) -> Deep {
    let mut words = [&[1, 0, 1, 1, 1, 0], rest].concat();
    words[1] = blocks_for(words.len()) as u16;
    let file = file_of(&words);
    let sizes = plain::admit(&file).expect("a rule set within the limits");
    let memory = vec![0; 2 * sizes.cells as usize];
    Deep { name, depth, file, sizes, state: State { term: bytes_of(&[20]), memory } }
}

/// The same with main as the only process; the given term is main's, since it has no call and no variable.
fn rule_set(name: &'static str, depth: usize, functions: &[u16], main: &[u16]) -> Deep {
    let deep = stream(name, depth, &[functions, &[1, 0], main].concat());
    Deep { state: State { term: bytes_of(main), ..deep.state }, ..deep }
}

/// One function with these expressions for the empty trace and for the label; main is the label's action.
fn function(name: &'static str, depth: usize, at_start: &[u16], at_label: &[u16]) -> Deep {
    rule_set(name, depth, &[&[1, 0], at_start, at_label].concat(), &[21, 0])
}

/// The most words that a stream has for one expression of a function whose other expression has one word.
const EXPRESSION_WORDS: usize = MOST_WORDS - 13;

/// Nested data in the expression for the label, evaluated by Move and Present.
fn at_label(name: &'static str, nest: Nest) -> Deep {
    let depth = levels(nest, EXPRESSION_WORDS);
    function(name, depth, &[0], &spelled(nest, depth))
}

/// Nested data in the expression for the empty trace, evaluated by Start.
fn at_start(name: &'static str, nest: Nest) -> Deep {
    let depth = levels(nest, EXPRESSION_WORDS);
    function(name, depth, &spelled(nest, depth), &[0])
}

/// Nested nots in the condition of an if: the deepest nest that an expression can have.
fn nots(name: &'static str) -> Deep {
    let depth = EXPRESSION_WORDS - 4;
    function(name, depth, &[0], &[&[5], &spelled((&[12], &[13], &[]), depth)[..], &[0, 0]].concat())
}

/// A rule set whose main is made of nested terms, unfolded by Start.
fn main_of(name: &'static str, nest: Nest) -> Deep {
    let depth = levels(nest, MOST_REACH as usize);
    rule_set(name, depth, &[0], &spelled(nest, depth))
}

/// The same called through as many quantifiers over one element as are possible, which add no word to the
/// unfolding: 8 in each of 31 processes.
fn quantified_main_of(name: &'static str, nest: Nest) -> Deep {
    let depth = levels(nest, MOST_REACH as usize);
    let innermost = spelled(nest, depth);
    let mut processes = [&[32, 0], &innermost[..]].concat();
    for process in 0..31 {
        processes.extend([&[0], &[27, 0].repeat(8)[..], &[29, process]].concat());
    }
    let deep = stream(name, depth + 31 * 8, &[&[0], &processes[..]].concat());
    Deep { state: State { term: bytes_of(&innermost), ..deep.state }, ..deep }
}

/// A rule set as deep as Admit can be given; the deep part is in a process that main does not call.
fn unreached(name: &'static str, shape: &str) -> Deep {
    let nesting =
        nesting::worst().into_iter().find(|nesting| nesting.name == shape).expect("a worst nesting");
    let sizes = plain::admit(&nesting.file).expect("the worst nestings are admitted");
    let state = State { term: bytes_of(&[20]), memory: vec![0; 2 * sizes.cells as usize] };
    Deep { name, depth: nesting.depth, file: nesting.file, sizes, state }
}

/// A state without nesting, to measure what every call takes.
pub fn shallow() -> Deep {
    let Deep { file, sizes, .. } = given("", 0, &[20]);
    let state = running::start(&file, sizes);
    Deep { name: "the key cabinet's start", depth: 5, file, sizes, state }
}

/// The worst shapes there are.
pub fn worst() -> Vec<Deep> {
    let (step, done, take) = (&[20][..], &[30][..], &[21, 0, 1, 0][..]);
    let beside = &[25, 0, 0, 0, 0][..];
    // Masks of Take's label and of the other one; done on the other side, or there would be too many moves.
    let (mask, other_mask) = (&[25, 1, 0, 0, 0][..], &[25, 2, 0, 0, 0][..]);
    vec![
        guard("not in a guard", (&[12], &[13], &[])),
        even_nots(),
        guard("and in a guard, left", (&[10], &[13], &[13])),
        guard("and in a guard, right", (&[10, 13], &[13], &[])),
        guard("if in conditions in a guard", (&[8, 5], &[13], &[0, 0, 0])),
        term("guards", (&[26, 13], step, &[])),
        term("sequences, left", (&[22], step, step)),
        term("sequences after done", (&[22, 30], step, &[])),
        term("choices, left", (&[23], step, step)),
        term("choices, right", (&[23, 20], step, &[])),
        stars(),
        term("parallels, left", (beside, step, step)),
        term("parallels, right", (&[beside, step].concat(), step, &[])),
        term("parallels with a mask, left", (mask, step, done)),
        term("parallels with a mask, right", (&[mask, done].concat(), step, &[])),
        term("parallels with another mask", (&[other_mask, done].concat(), take, &[])),
        at_label("add at a label, left", (&[3], &[0], &[0])),
        at_label("add at a label, right", (&[3, 0], &[0], &[])),
        at_label("before at a label", (&[7, 0], &[0], &[])),
        at_label("if at a label, last operand", (&[5, 13, 0], &[0], &[])),
        at_label("if at a label, middle operand", (&[5, 13], &[0], &[0])),
        at_label("conditions in if at a label", (&[5, 8], &[0], &[0, 0, 0])),
        nots("not at a label"),
        at_start("add at the start, left", (&[3], &[0], &[0])),
        at_start("conditions in if at the start", (&[5, 8], &[0], &[0, 0, 0])),
        main_of("main of guards", (&[26, 13], step, &[])),
        main_of("main of sequences, left", (&[22], step, step)),
        main_of("main of sequences, right", (&[22, 20], step, &[])),
        main_of("main of choices, left", (&[23], step, step)),
        main_of("main of choices, right", (&[23, 20], step, &[])),
        main_of("main of parallels, left", (beside, step, step)),
        main_of("main of parallels, right", (&[beside, step].concat(), step, &[])),
        quantified_main_of("main of quantifiers, sequences", (&[22], step, step)),
        unreached("sequences that main does not call", "sequence, left"),
    ]
}

/// Runs of rule sets whose main is a star of a deep or broad term: each round starts it again.
pub fn rounds() -> Vec<Call> {
    // Move 1 exists in every state, and at the star it is the first move of a new round.
    let (step, beside) = (&[23, 20, 20][..], &[25, 0, 0, 0, 0][..]);
    let choice = [&[23, 20].repeat(60)[..], &[20]].concat();
    let list = [1; 600];
    let nests: [(&'static str, Nest, usize); 6] = [
        ("rounds of sequences, left", (&[22], step, step), 4000),
        ("rounds of 15 sequences, left, each before a choice", (&[22], step, &choice), 15 * 122 + 3),
        ("rounds of sequences, right", (&[22, 23, 20, 20], step, &[]), 4000),
        ("rounds of choices, left", (&[23], step, step), 4000),
        ("rounds of parallels, left", (beside, step, step), 2000),
        ("rounds of parallels, right", (&[beside, step].concat(), step, &[]), 2000),
    ];
    let call = |(name, nest, words): &(&'static str, Nest, usize)| {
        let depth = levels(*nest, *words);
        let Deep { file, sizes, .. } = rule_set(name, depth, &[0], &[&[24], &spelled(*nest, depth)[..]].concat());
        Call {
            name: name.to_string(),
            operation: Operation::Run,
            given: vec![file, readers::by_turns(&list)],
            lent: lent::zeros_for_run(sizes).to_vec(),
            expected: Some(0),
        }
    };
    nests.iter().map(call).collect()
}

impl Deep {
    /// The last move of main, and some numbers after it, each with a reader.
    fn run_list(&self) -> Vec<u8> {
        let start = running::start(&self.file, self.sizes);
        let moves = plain::count(&self.file, &start.term, &start.memory).expect("a right term");
        let last = moves.saturating_sub(1) as u16;
        readers::by_turns(&[last, 0, 1, 2, last, 0])
    }

    /// Start, a run that begins with main's last move, Count, and the last move by its number and by its
    /// action; those of them that exist.
    pub fn calls(&self) -> Vec<Call> {
        let Deep { file, state: State { term, memory }, .. } = self;
        let lent = vec![vec![0xa5; 2 * MOST_REACH as usize], vec![0x5a; memory.len()]];
        let given = vec![file.clone(), term.clone(), memory.clone()];
        let call = |operation, given: &[Vec<u8>], lent: &[Vec<u8>]| Call {
            name: self.name.to_string(),
            operation,
            given: given.to_vec(),
            lent: lent.to_vec(),
            expected: Some(0),
        };
        let lent_to_run = [vec![vec![0xff; TABLE_BYTES]], lent.clone(), lent.clone()].concat();
        let mut calls = vec![
            call(Operation::Start, &given[..1], &lent),
            call(Operation::Run, &[file.clone(), self.run_list()], &lent_to_run),
            call(Operation::Count, &given, &[]),
        ];
        let count = plain::count(file, term, memory).expect("a right term");
        let Some(last) = count.checked_sub(1).map(u64::from) else { return calls };
        let (mut next_term, mut next_memory) = (lent[0].clone(), lent[1].clone());
        let made = plain::make_move(file, term, memory, last, &mut next_term, &mut next_memory);
        let event = bytes_of(&made.expect("the last move").action.words());
        calls.push(call(Operation::Move(last), &given, &lent));
        calls.push(call(Operation::Present, &[given, vec![event]].concat(), &lent));
        calls
    }
}
