//! Main unfolded into a running term.
//!
//! Document 01, "Unfolding, size and breadth": "Calls are replaced by bodies. 27 and 28 become choices or
//! parallels of the copies for element 0, 1 and so on, nested to the right; over one element, that copy
//! alone. Each variable becomes a constant."

use super::decoded::Rules;
use super::evaluation::shape;
use super::term::{Term, ACTION, INTERNAL};

pub(super) fn main_of(rules: &Rules) -> Term {
    let term = Term::with_room(rules.sizes.reach as usize);
    let mut unfolding = Unfolding { rules, stream: rules.words(), term };
    unfolding.term(rules.main(), Scope::default());
    unfolding.term
}

/// The values of the variables in scope.
#[derive(Clone, Copy, Default)]
struct Scope {
    count: usize,
    values: [u16; 8],
}

impl Scope {
    fn with(mut self, value: u16) -> Scope {
        self.values[self.count] = value;
        self.count += 1;
        self
    }

    /// An argument's value: code 1 or 2, and its number.
    fn value(&self, code: u16, number: u16) -> u16 {
        if code == 1 {
            number
        } else {
            self.values[usize::from(number)]
        }
    }
}

struct Unfolding<'a> {
    rules: &'a Rules,
    stream: &'a [u16],
    term: Term,
}

impl Unfolding<'_> {
    fn push(&mut self, word: u16) {
        self.term.words.push(word);
    }

    fn here(&self) -> usize {
        self.term.words.len()
    }

    /// Unfolds the rule term at offset `at` of the stream. Returns the offset after it.
    fn term(&mut self, at: usize, scope: Scope) -> usize {
        let from = self.here();
        let code = self.stream[at];
        let end = match code {
            INTERNAL => {
                self.push(code);
                at + 1
            }
            ACTION => self.action(at, scope),
            22 | 23 => {
                self.push(code);
                let right = self.term(at + 1, scope);
                self.term(right, scope)
            }
            24 => {
                self.push(code);
                self.term(at + 1, scope)
            }
            25 => {
                self.copy(at, 5);
                let right = self.term(at + 5, scope);
                self.term(right, scope)
            }
            26 => {
                self.push(code);
                let inner = self.condition(at + 1, scope);
                self.term(inner, scope)
            }
            27 => return self.copies(at, 2, &[23], scope),
            28 => {
                let mask = &self.stream[at + 2..at + 6];
                return self.copies(at, 6, &[25, mask[0], mask[1], mask[2], mask[3]], scope);
            }
            _ => return self.call(at, scope),
        };
        self.term.close(from);
        end
    }

    fn copy(&mut self, at: usize, count: usize) {
        self.term.words.extend_from_slice(&self.stream[at..at + count]);
    }

    fn action(&mut self, at: usize, scope: Scope) -> usize {
        let label = self.stream[at + 1];
        let end = at + 2 + 2 * usize::from(self.rules.tables.labels[usize::from(label)].count);
        self.copy(at, 2);
        for place in (at + 2..end).step_by(2) {
            self.push(1);
            self.push(scope.value(self.stream[place], self.stream[place + 1]));
        }
        end
    }

    /// A condition with its variables replaced by constants. `to_come` counts the expressions still to read.
    /// Returns the offset after it.
    fn condition(&mut self, at: usize, scope: Scope) -> usize {
        let (from, mut place, mut to_come) = (self.here(), at, 1usize);
        while to_come > 0 {
            let code = self.stream[place];
            let (words, operands) = shape(code);
            if code == 2 {
                self.push(1);
                self.push(scope.value(2, self.stream[place + 1]));
            } else {
                self.copy(place, words);
            }
            place += words;
            to_come += operands;
            to_come -= 1;
        }
        self.term.close(from);
        place
    }

    /// The copies of the term under a quantifier, which begins `quantifier` words after `at`; each copy but
    /// the last comes after the words `head`. Returns the offset after the term.
    fn copies(&mut self, at: usize, quantifier: usize, head: &[u16], scope: Scope) -> usize {
        let elements = self.rules.tables.elements(self.stream[at + 1]);
        let mut heads = [0; 64];
        let mut end = at;
        for element in 0..elements {
            if element + 1 < elements {
                heads[usize::from(element)] = self.here();
                self.term.words.extend_from_slice(head);
            }
            end = self.term(at + quantifier, scope.with(element));
        }
        // The copies are nested to the right, so that all their parts end here.
        for &from in &heads[..usize::from(elements) - 1] {
            self.term.close(from);
        }
        end
    }

    /// The body of the process, with the arguments as its variables. Returns the offset after the call.
    fn call(&mut self, at: usize, scope: Scope) -> usize {
        let (parameters, body) = self.rules.process(self.stream[at + 1]);
        let end = at + 2 + 2 * parameters;
        let mut inner = Scope::default();
        for place in (at + 2..end).step_by(2) {
            inner = inner.with(scope.value(self.stream[place], self.stream[place + 1]));
        }
        self.term(body, inner);
        end
    }
}
