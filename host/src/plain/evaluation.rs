//! The value of a data expression and the truth of a condition, over cells.
//!
//! Document 01, "Values and conditions". A value is a word, and undefined is the largest word, so that
//! several tests for undefined are also tests for too large a number. The words have been checked before they
//! are evaluated.

use super::decoded::Layout;

/// The word that stores undefined.
pub(super) const UNDEFINED: u16 = 65535;

/// The cells that now and before read.
#[derive(Clone, Copy)]
pub(super) struct Cells<'a> {
    pub layout: &'a Layout,
    pub now: &'a [u16],
    pub before: &'a [u16],
}

/// An expression being evaluated: its words and the offset of the next one. Variable 0 is the function's
/// parameter, variables 1 and 2 are the label's.
pub(super) struct Evaluation<'a> {
    words: &'a [u16],
    place: usize,
    variables: [u16; 3],
    cells: Cells<'a>,
}

/// The value of the data expression that begins at the first word.
pub(super) fn value(words: &[u16], variables: [u16; 3], cells: Cells) -> u16 {
    Evaluation { words, place: 0, variables, cells }.data()
}

/// Whether the condition that begins at the first word holds. A guard of a running term has no variables.
pub(super) fn holds(words: &[u16], cells: Cells) -> bool {
    Evaluation { words, place: 0, variables: [UNDEFINED; 3], cells }.condition()
}

impl Evaluation<'_> {
    #[inline]
    fn word(&mut self) -> u16 {
        let word = self.words[self.place];
        self.place += 1;
        word
    }

    /// A data expression. Constants and variables, the most frequent operands, are evaluated here without a
    /// call.
    #[inline(always)]
    fn data(&mut self) -> u16 {
        match self.words[self.place] {
            1 => {
                self.place += 2;
                self.words[self.place - 1]
            }
            2 => {
                self.place += 2;
                self.variables[usize::from(self.words[self.place - 1])]
            }
            _ => self.compound(),
        }
    }

    fn compound(&mut self) -> u16 {
        match self.word() {
            0 => UNDEFINED,
            3 => {
                let (left, right) = (self.data(), self.data());
                sum(left, right)
            }
            4 => {
                let (left, right) = (self.data(), self.data());
                difference(left, right)
            }
            5 => self.chosen(),
            code => {
                let function = usize::from(self.word());
                let argument = self.data();
                let cells = if code == 6 { self.cells.now } else { self.cells.before };
                self.cells.layout.cell(function, argument).map_or(UNDEFINED, |cell| cells[cell])
            }
        }
    }

    /// If: evaluates the branch that the condition selects, and skips the other.
    fn chosen(&mut self) -> u16 {
        if self.condition() {
            let value = self.data();
            self.pass();
            value
        } else {
            self.pass();
            self.data()
        }
    }

    fn condition(&mut self) -> bool {
        match self.word() {
            8 => self.data() == self.data(),
            9 => {
                let (left, right) = (self.data(), self.data());
                right != UNDEFINED && left < right
            }
            10 => {
                let (left, right) = (self.condition(), self.condition());
                left && right
            }
            11 => {
                let (left, right) = (self.condition(), self.condition());
                left || right
            }
            12 => !self.condition(),
            _ => true,
        }
    }

    /// Skips one expression. `to_come` counts the expressions still to skip: each code adds its operands to
    /// it.
    fn pass(&mut self) {
        let mut to_come = 1usize;
        while to_come > 0 {
            to_come -= 1;
            let (words, operands) = shape(self.words[self.place]);
            self.place += words;
            to_come += operands;
        }
    }
}

/// For a code of data or of a condition: how many words come before its operands, and how many operands it
/// has.
pub(super) fn shape(code: u16) -> (usize, usize) {
    match code {
        0 | 13 => (1, 0),
        1 | 2 => (2, 0),
        3 | 4 | 8..=11 => (1, 2),
        5 => (1, 3),
        12 => (1, 1),
        _ => (2, 1),
    }
}

/// Undefined if an operand is undefined or the sum exceeds 65,534: in both cases the saturated sum is 65,535,
/// undefined's word.
fn sum(left: u16, right: u16) -> u16 {
    left.saturating_add(right)
}

/// Undefined if an operand is undefined or the result is below 0. An undefined right operand is above every
/// number, so that case needs no test of its own.
fn difference(left: u16, right: u16) -> u16 {
    if left == UNDEFINED || left < right {
        UNDEFINED
    } else {
        left - right
    }
}
