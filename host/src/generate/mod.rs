//! Cases for Admit: right rule sets, sets with one fault or two, sets at the limits, damaged and random
//! bytes. And calls of the other operations: right and wrong running terms, events, memories and buffers.
//!
//! All are generated from fixed seeds, so that they are the same every time. Where the generator knows the
//! answer that document 01 asks for, the case contains it, so that the plain reader is tested as well as the
//! engine.

pub mod calls;
pub mod clauses;
pub mod damage;
pub mod deep;
pub mod ends;
pub mod events;
pub mod faults;
pub mod full;
pub mod lent;
pub mod limits;
pub mod nesting;
pub mod random;
pub mod readers;
pub mod roles;
pub mod running;
pub mod well_formed;
pub mod wrong_terms;

use crate::rules::{Condition, Data, RuleSet, Term};
use crate::Answer;

/// The answer that a case must get.
#[derive(Clone, Copy, Debug, PartialEq, Eq)]
pub enum Expected {
    /// Admitted, with any sizes.
    Admitted,
    /// Exactly this answer.
    Answer(Answer),
    Refused(u8),
    /// Not known to the generator: the plain reader and the engine must agree.
    Open,
}

impl Expected {
    pub fn meets(self, answer: Answer) -> bool {
        match self {
            Expected::Admitted => answer.is_ok(),
            Expected::Answer(expected) => answer == expected,
            Expected::Refused(number) => answer == Err(number),
            Expected::Open => true,
        }
    }
}

/// Bytes for Admit, with the expected answer.
#[derive(Clone, Debug)]
pub struct Case {
    pub name: String,
    pub bytes: Vec<u8>,
    pub expected: Expected,
}

impl Case {
    pub fn new(name: impl Into<String>, bytes: Vec<u8>, expected: Expected) -> Case {
        Case { name: name.into(), bytes, expected }
    }

    pub fn of_rules(name: impl Into<String>, rules: &RuleSet, expected: Expected) -> Case {
        Case::new(name, rules.file(), expected)
    }
}

/// Receives the cases, one by one: there are too many to keep in memory.
pub type Taker<'a> = &'a mut dyn FnMut(Case);

/// Every kind of case. `rounds` multiplies the number of random ones; tests use 1.
pub fn every_case(rounds: usize, take: Taker) {
    ends::cases(take);
    clauses::cases(take);
    limits::cases(take);
    nesting::cases(take);
    faults::cases(rounds, take);
    damage::cases(rounds, take);
}

/// A condition of exactly n words, n at least 1: ands of true nested to the right, inside a not if n is even.
pub fn condition_of(words: usize) -> Condition {
    assert!(words > 0, "a condition has at least one word");
    let ands = (words - 1) / 2;
    let chain = (0..ands).fold(Condition::True, |inner, _| Condition::and(Condition::True, inner));
    if words.is_multiple_of(2) {
        Condition::negated(chain)
    } else {
        chain
    }
}

/// A term whose size and reach are n words (n is 1, or 3 or more) and whose breadth is 1.
pub fn term_of(words: usize) -> Term {
    if words == 1 {
        Term::Internal
    } else {
        Term::guard(condition_of(words - 2), Term::Internal)
    }
}

/// A data expression n words longer, n not 1. Its value may differ from that of the given one.
pub fn lengthened(data: Data, words: usize) -> Data {
    assert!(words != 1, "no expression grows by one word around another");
    let by_three = words % 2;
    let by_two = (words - 3 * by_three) / 2;
    let longer = (0..by_two).fold(data, |inner, _| Data::plus(Data::Undefined, inner));
    if by_three == 1 {
        Data::choose(Condition::True, longer, Data::Undefined)
    } else {
        longer
    }
}
