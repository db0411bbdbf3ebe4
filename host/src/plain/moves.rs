//! The moves of a running term, in order: counted, listed by their actions, and made by number.
//!
//! Document 01, "Moves, in order". Each part that can move is visited once. Actions are listed only if an
//! enclosing parallel with a mask needs them or the caller asks for the list. For each parallel with a mask
//! the pairs of its sides' moves are stored, so that the successor of a move is built without listing
//! anything again.

use super::evaluation::{holds, Cells};
use super::term::{Term, ACTION, DONE, INTERNAL};
use crate::Action;

/// An action as one number, so that equal actions are equal numbers: the label, the first argument, the
/// second argument and their count, one byte each. The internal action has a label, 255, that no rule set
/// has.
#[derive(Clone, Copy, PartialEq, Eq)]
pub(super) struct Packed(u32);

impl Packed {
    pub const INTERNAL: Packed = Packed(u32::MAX);

    /// The action of a running leaf with code 21.
    #[inline]
    pub fn of(words: &[u16]) -> Packed {
        let byte = |place: usize| words.get(place).map_or(0, |&word| u32::from(word));
        let count = (words.len() as u32 - 2) / 2;
        Packed(byte(1) | byte(3) << 8 | byte(5) << 16 | count << 24)
    }

    pub fn label(self) -> usize {
        (self.0 & 255) as usize
    }

    pub fn first(self) -> u16 {
        (self.0 >> 8 & 255) as u16
    }

    pub fn second(self) -> u16 {
        (self.0 >> 16 & 255) as u16
    }

    /// The label as a bit of a mask; 0 for an internal move, which counts as outside every mask.
    #[inline]
    fn bit(self) -> u64 {
        if self == Packed::INTERNAL {
            0
        } else {
            1 << self.label()
        }
    }

    pub fn action(self) -> Action {
        if self == Packed::INTERNAL {
            return Action::Internal;
        }
        let arguments = [self.first(), self.second()];
        Action::Visible { label: self.label() as u16, count: (self.0 >> 24) as u8, arguments }
    }
}

/// In a pair of moves: this side does not move. No count exceeds 65,535, so no move has this number.
const STAYS: u16 = 65535;

/// A flag in the mark of a parallel with a mask: neither side has a move with label in the mask, so the
/// parallel moves as one without a mask. Counts and numbers of pairs are far smaller than this bit.
const APART: u32 = 1 << 31;

/// What a visit stores for building a successor. A run keeps it from one step to the next only to reuse its
/// memory.
#[derive(Default)]
pub(super) struct Findings {
    /// By offset in the term. At a choice or at a parallel without a mask: how many moves the left side has.
    /// At a parallel with a mask: the same with the flag `APART`, or the index of its first entry in `pairs`.
    marks: Vec<u32>,
    /// For each move of a parallel with a mask, the move of its left side and that of its right side.
    pairs: Vec<(u16, u16)>,
    /// The actions listed so far, in order.
    actions: Vec<Packed>,
    /// A mask that contains at least the labels of the actions listed for the enclosing parallel.
    labels: u64,
}

/// A term and the cells that its guards read.
pub(super) struct Moves<'a> {
    pub term: &'a Term,
    pub cells: Cells<'a>,
    pub findings: &'a mut Findings,
}

impl Moves<'_> {
    /// The number of moves.
    pub fn count(&mut self) -> usize {
        self.begin();
        self.visit::<false>(0)
    }

    /// The actions of all moves, in order.
    pub fn list(&mut self) -> &[Packed] {
        self.begin();
        self.visit::<true>(0);
        &self.findings.actions
    }

    fn begin(&mut self) {
        self.findings.pairs.clear();
        self.findings.actions.clear();
        self.findings.labels = 0;
        if self.findings.marks.len() < self.term.words.len() {
            self.findings.marks.resize(self.term.words.len(), 0);
        }
    }

    /// Counts the moves of the part that begins at offset `at`; if `LIST`, appends their actions to the list.
    fn visit<const LIST: bool>(&mut self, at: usize) -> usize {
        match self.term.words[at] {
            INTERNAL => self.one::<LIST>(Packed::INTERNAL),
            ACTION if LIST => self.one::<LIST>(action_at(self.term, at)),
            ACTION => 1,
            22 if self.term.words[at + 1] == DONE => self.visit::<LIST>(at + 2),
            22 => self.visit::<LIST>(at + 1),
            23 => self.both::<LIST>(at, at + 1),
            24 => self.one::<LIST>(Packed::INTERNAL) + self.visit::<LIST>(at + 1),
            25 if both_done(self.term, at) => self.one::<LIST>(Packed::INTERNAL),
            25 if self.term.mask(at) == 0 => self.both::<LIST>(at, at + 5),
            25 => self.synchronised::<LIST>(at),
            26 if holds(&self.term.words[at + 1..], self.cells) => {
                self.visit::<LIST>(self.term.after(at + 1))
            }
            _ => 0,
        }
    }

    #[inline]
    fn one<const LIST: bool>(&mut self, action: Packed) -> usize {
        if LIST {
            self.findings.actions.push(action);
            self.findings.labels |= action.bit();
        }
        1
    }

    /// Left's moves, then right's.
    #[inline]
    fn both<const LIST: bool>(&mut self, at: usize, left: usize) -> usize {
        let first = self.visit::<LIST>(left);
        self.findings.marks[at] = first as u32;
        first + self.visit::<LIST>(self.term.after(left))
    }

    /// Left's moves with label outside the mask, right's likewise, then pairs of equal actions with label
    /// in the mask, ordered by left, then right.
    fn synchronised<const LIST: bool>(&mut self, at: usize) -> usize {
        let (from, mask) = (self.findings.actions.len(), self.term.mask(at));
        let around = std::mem::take(&mut self.findings.labels);
        let left = self.visit::<true>(at + 5);
        let right = self.visit::<true>(self.term.after(at + 5));
        let apart = self.findings.labels & mask == 0;
        let count = if apart { left + right } else { self.paired(at, from, left) };
        if apart {
            self.findings.marks[at] = left as u32 | APART;
        }
        if LIST {
            self.findings.labels |= around;
        } else {
            self.findings.actions.truncate(from);
            self.findings.labels = around;
        }
        count
    }

    /// Stores the pairs of the parallel at `at`. The actions of its sides are listed from index `from` on,
    /// `left` of them the left side's; they are replaced by the actions of the whole parallel.
    fn paired(&mut self, at: usize, from: usize, left: usize) -> usize {
        let Findings { marks, pairs, actions, labels } = &mut *self.findings;
        let begin = pairs.len();
        marks[at] = begin as u32;
        pair_up(&actions[from..], left, self.term.mask(at), pairs);
        let sides = actions.len();
        *labels = 0;
        for &(first, second) in &pairs[begin..] {
            let place = if first == STAYS { left + usize::from(second) } else { usize::from(first) };
            let action = actions[from + place];
            *labels |= action.bit();
            actions.push(action);
        }
        actions.copy_within(sides.., from);
        let count = pairs.len() - begin;
        actions.truncate(from + count);
        count
    }

    /// Writes the successor of a move of the part that begins at offset `at`, and returns its action. The
    /// moves have been counted by a visit.
    pub fn build(&self, at: usize, number: usize, output: &mut impl Output) -> Packed {
        let term = self.term;
        match term.words[at] {
            INTERNAL => done(output),
            ACTION => {
                done(output);
                action_at(term, at)
            }
            22 if term.words[at + 1] == DONE => self.build(at + 2, number, output),
            22 => self.followed(at + 1, number, term.after(at + 1), output),
            23 => {
                let first = self.findings.marks[at] as usize;
                match number.checked_sub(first) {
                    None => self.build(at + 1, number, output),
                    Some(number) => self.build(term.after(at + 1), number, output),
                }
            }
            24 if number == 0 => done(output),
            24 => self.followed(at + 1, number - 1, at, output),
            25 if both_done(term, at) => done(output),
            25 => self.beside(at, number, output),
            _ => self.build(term.after(at + 1), number, output),
        }
    }

    /// Writes a sequence: the successor of the part at `part`, then an unchanged copy of the part at `next`.
    /// Returns the move's action.
    fn followed(&self, part: usize, number: usize, next: usize, output: &mut impl Output) -> Packed {
        let from = output.open(&[22]);
        let action = self.build(part, number, output);
        output.copy(self.term, next);
        output.close(from);
        action
    }

    /// Writes the successor of a parallel: for each side its successor, if it moves, or a copy.
    fn beside(&self, at: usize, number: usize, output: &mut impl Output) -> Packed {
        let mark = self.findings.marks[at];
        let first = (mark & !APART) as usize;
        let (left, right) = if self.term.mask(at) != 0 && mark & APART == 0 {
            self.findings.pairs[first + number]
        } else if number < first {
            (number as u16, STAYS)
        } else {
            (STAYS, (number - first) as u16)
        };
        let from = output.open(&self.term.words[at..at + 5]);
        let second = self.term.after(at + 5);
        let moved = self.side(at + 5, left, output);
        let answer = self.side(second, right, output).or(moved);
        output.close(from);
        answer.expect("a side moves")
    }

    fn side(&self, at: usize, number: u16, output: &mut impl Output) -> Option<Packed> {
        if number == STAYS {
            output.copy(self.term, at);
            return None;
        }
        Some(self.build(at, usize::from(number), output))
    }
}

/// Appends the moves of a parallel with a mask to `pairs`. The first `left` actions are those of the left
/// side's moves, the others those of the right side's.
fn pair_up(actions: &[Packed], left: usize, mask: u64, pairs: &mut Vec<(u16, u16)>) {
    let (left, right) = actions.split_at(left);
    let outside = |&(_, action): &(u16, &Packed)| action.bit() & mask == 0;
    pairs.extend((0..).zip(left).filter(outside).map(|(number, _)| (number, STAYS)));
    pairs.extend((0..).zip(right).filter(outside).map(|(number, _)| (STAYS, number)));
    for (first, action) in (0..).zip(left).filter(|(_, action)| action.bit() & mask != 0) {
        let equal = (0..).zip(right).filter(|(_, other)| *other == action);
        pairs.extend(equal.map(|(second, _)| (first, second)));
    }
}

fn action_at(term: &Term, at: usize) -> Packed {
    Packed::of(&term.words[at..term.after(at)])
}

fn both_done(term: &Term, at: usize) -> bool {
    term.words[at + 5] == DONE && term.words[at + 6] == DONE
}

fn done(output: &mut impl Output) -> Packed {
    let from = output.open(&[DONE]);
    output.close(from);
    Packed::INTERNAL
}

/// A destination for a successor.
pub(super) trait Output {
    /// Writes the first words of a part, and returns the offset where it begins.
    fn open(&mut self, head: &[u16]) -> usize;
    /// Writes an unchanged copy of the part of a term that begins at offset `at`.
    fn copy(&mut self, term: &Term, at: usize);
    /// Marks the end of the part that began at offset `from`.
    fn close(&mut self, from: usize);
}

/// The next term of a run. `sizes` already has room for it.
impl Output for Term {
    fn open(&mut self, head: &[u16]) -> usize {
        let from = self.words.len();
        self.words.extend_from_slice(head);
        from
    }

    fn copy(&mut self, term: &Term, at: usize) {
        let from = self.words.len();
        self.words.extend_from_slice(&term.words[at..term.after(at)]);
        self.sizes[from..self.words.len()].copy_from_slice(&term.sizes[at..term.after(at)]);
    }

    fn close(&mut self, from: usize) {
        Term::close(self, from);
    }
}
