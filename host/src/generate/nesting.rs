//! Streams that nest as deep as 64 blocks allow: the worst cases for the recursion of Admit.
//!
//! Document 01 limits nesting only by the stream's length, "1 to 64 blocks". Each of these is admitted: the
//! deep expression or term is in a function or in a process that main does not call.

use super::{Case, Expected, Taker};
use crate::blocks::{file_in, MOST_BLOCKS, MOST_WORDS};

/// A worst case: its name, its depth in codes and its file.
pub struct Nesting {
    pub name: &'static str,
    pub depth: usize,
    pub file: Vec<u8>,
}

/// Edition, 64 blocks, one domain of one element, one label without parameters.
const HEAD: [u16; 6] = [1, 64, 1, 1, 1, 0];
/// The function section: no function, or one whose two expressions are undefined.
const NO_FUNCTION: [u16; 1] = [0];
const FUNCTION: [u16; 4] = [1, 0, 0, 0];
/// Two processes, the first without parameters; then main.
const PROCESS: [u16; 2] = [2, 0];
const MAIN: [u16; 2] = [0, 20];

/// A nest: the words before it, the words that open a level, the innermost words, the words that close a
/// level, and the words after it.
struct Nest<'a> {
    before: &'a [u16],
    open: &'a [u16],
    middle: &'a [u16],
    close: &'a [u16],
    after: &'a [u16],
}

impl Nest<'_> {
    /// The file with as many levels as fit in 64 blocks.
    fn fill(&self, name: &'static str) -> Nesting {
        let around = self.before.len() + self.middle.len() + self.after.len();
        let depth = (MOST_WORDS - around) / (self.open.len() + self.close.len());
        let mut words = self.before.to_vec();
        words.extend(self.open.repeat(depth));
        words.extend(self.middle);
        words.extend(self.close.repeat(depth));
        words.extend(self.after);
        Nesting { name, depth, file: file_in(&words, MOST_BLOCKS) }
    }
}

/// Nested data in the function's expression for the label.
fn data(name: &'static str, open: &[u16], middle: &[u16], close: &[u16]) -> Nesting {
    let before = [&HEAD[..], &[1, 0, 0]].concat();
    let after = [&PROCESS[..], &[20], &MAIN].concat();
    Nest { before: &before, open, middle, close, after: &after }.fill(name)
}

/// Nested conditions in a guard of the first process.
fn condition(name: &'static str, open: &[u16], middle: &[u16], close: &[u16]) -> Nesting {
    condition_with(name, &NO_FUNCTION, open, middle, close)
}

fn condition_with(
    name: &'static str,
    functions: &[u16],
    open: &[u16],
    middle: &[u16],
    close: &[u16],
) -> Nesting {
    let before = [&HEAD[..], functions, &PROCESS, &[26]].concat();
    let after = [&[20], &MAIN[..]].concat();
    Nest { before: &before, open, middle, close, after: &after }.fill(name)
}

/// Nested terms in the first process.
fn term(name: &'static str, open: &[u16], middle: &[u16], close: &[u16]) -> Nesting {
    let before = [&HEAD[..], &NO_FUNCTION, &PROCESS].concat();
    Nest { before: &before, open, middle, close, after: &MAIN }.fill(name)
}

/// 31 processes of the given words, the first ending in an internal step, each of the others in a call of the
/// one before; then main.
fn chain(name: &'static str, body: &[u16], rounds: usize) -> Nesting {
    let mut words = [&HEAD[..], &NO_FUNCTION, &[32]].concat();
    for process in 0..31u16 {
        words.push(0);
        words.extend(body.repeat(rounds));
        match process {
            0 => words.push(20),
            _ => words.extend([29, process - 1]),
        }
    }
    words.extend(MAIN);
    words[1] = crate::blocks::blocks_for(words.len()) as u16;
    Nesting { name, depth: 31 * rounds, file: crate::blocks::file_of(&words) }
}

/// The worst shapes there are.
pub fn worst() -> Vec<Nesting> {
    vec![
        condition("not", &[12], &[13], &[]),
        condition("and, left", &[10], &[13], &[13]),
        condition("and, right", &[10, 13], &[13], &[]),
        condition("if inside conditions", &[8, 5], &[13], &[0, 0, 0]),
        condition_with("now inside conditions", &FUNCTION, &[8, 6, 0, 5], &[13], &[0, 0, 0]),
        data("add, left", &[3], &[0], &[0]),
        data("add, right", &[3, 0], &[0], &[]),
        data("before", &[7, 0], &[0], &[]),
        data("if, last operand", &[5, 13, 0], &[0], &[]),
        data("if, middle operand", &[5, 13], &[0], &[0]),
        data("conditions inside if", &[5, 8], &[0], &[0, 0, 0]),
        term("star", &[24], &[20], &[]),
        term("sequence, left", &[22], &[20], &[20]),
        term("sequence, right", &[22, 20], &[20], &[]),
        term("choice, left", &[23], &[20], &[20]),
        term("choice, right", &[23, 20], &[20], &[]),
        term("parallel, left", &[25, 0, 0, 0, 0], &[20], &[20]),
        term("parallel, right", &[25, 0, 0, 0, 0, 20], &[20], &[]),
        term("guard", &[26, 13], &[20], &[]),
        term("star of a guard", &[24, 26, 13], &[20], &[]),
        chain("calls", &[], 0),
        chain("quantifiers, 8 to a process", &[28, 0, 0, 0, 0, 0], 8),
        chain("stars in a chain of calls", &[24], 500),
    ]
}

pub fn cases(take: Taker) {
    for nesting in worst() {
        take(Case::new(format!("nested: {}", nesting.name), nesting.file, Expected::Admitted));
    }
}
