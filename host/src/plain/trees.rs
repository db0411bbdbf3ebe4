//! An admitted stream, and a running term, read into trees (`rules::RuleSet`, `Tree`), for the interpreter
//! over histories.
//!
//! Document 01, "Blocks and the rule stream", items 2 to 5, and "Unfolding, size and breadth". The words have
//! been admitted, so they are not checked here.

use std::rc::Rc;

use super::histories::{Event, Tree};

use crate::rules::{Argument, Condition, Data, Function, Mask, Process, RuleSet, Term};

/// Items 2 to 5, as a tree.
pub(super) fn rule_set(words: &[u16]) -> RuleSet {
    let mut reading = Reading { rest: words.iter() };
    let domains = reading.counted();
    let labels: Vec<Vec<u16>> = (0..reading.word()).map(|_| reading.counted()).collect();
    let function = |reading: &mut Reading| Function {
        domain: reading.word(),
        at_start: reading.data(),
        at_label: labels.iter().map(|_| reading.data()).collect(),
    };
    let functions = (0..reading.word()).map(|_| function(&mut reading)).collect();
    let mut rules = RuleSet { domains, labels, functions, processes: Vec::new() };
    for _ in 0..reading.word() {
        let parameters = reading.counted();
        let term = reading.term(&rules);
        rules.processes.push(Process { parameters, term });
    }
    rules
}

/// A running term of the rule set, as a tree.
pub(super) fn running(rules: &RuleSet, words: &[u16]) -> Rc<Tree> {
    Reading { rest: words.iter() }.running(rules)
}

struct Reading<'a> {
    rest: std::slice::Iter<'a, u16>,
}

impl Reading<'_> {
    fn word(&mut self) -> u16 {
        *self.rest.next().expect("an admitted stream is whole")
    }

    /// A count n, then n numbers.
    fn counted(&mut self) -> Vec<u16> {
        (0..self.word()).map(|_| self.word()).collect()
    }

    fn data(&mut self) -> Data {
        match self.word() {
            0 => Data::Undefined,
            1 => Data::Constant(self.word()),
            2 => Data::Variable(self.word()),
            3 => Data::plus(self.data(), self.data()),
            4 => Data::minus(self.data(), self.data()),
            5 => Data::choose(self.condition(), self.data(), self.data()),
            6 => Data::now(self.word(), self.data()),
            7 => Data::before(self.word(), self.data()),
            code => panic!("{code} is no code of data"),
        }
    }

    fn condition(&mut self) -> Condition {
        match self.word() {
            8 => Condition::equal(self.data(), self.data()),
            9 => Condition::less(self.data(), self.data()),
            10 => Condition::and(self.condition(), self.condition()),
            11 => Condition::or(self.condition(), self.condition()),
            12 => Condition::negated(self.condition()),
            13 => Condition::True,
            code => panic!("{code} is no code of a condition"),
        }
    }

    fn mask(&mut self) -> Mask {
        [self.word(), self.word(), self.word(), self.word()]
    }

    /// n arguments.
    fn arguments(&mut self, count: usize) -> Vec<Argument> {
        let argument = |reading: &mut Self| match reading.word() {
            1 => Argument::Constant(reading.word()),
            _ => Argument::Variable(reading.word()),
        };
        (0..count).map(|_| argument(self)).collect()
    }

    fn term(&mut self, rules: &RuleSet) -> Term {
        match self.word() {
            20 => Term::Internal,
            21 => {
                let label = self.word();
                Term::Action(label, self.arguments(rules.labels[usize::from(label)].len()))
            }
            22 => Term::sequence(self.term(rules), self.term(rules)),
            23 => Term::choice(self.term(rules), self.term(rules)),
            24 => Term::star(self.term(rules)),
            25 => Term::parallel(self.mask(), self.term(rules), self.term(rules)),
            26 => Term::guard(self.condition(), self.term(rules)),
            27 => Term::choice_over(self.word(), self.term(rules)),
            28 => Term::parallel_over(self.word(), self.mask(), self.term(rules)),
            29 => {
                let process = self.word();
                Term::Call(process, self.arguments(rules.processes[usize::from(process)].parameters.len()))
            }
            code => panic!("{code} is no code of a rule term"),
        }
    }

    fn running(&mut self, rules: &RuleSet) -> Rc<Tree> {
        Rc::new(match self.word() {
            20 => Tree::Internal,
            21 => {
                let label = self.word();
                // Each argument is a code followed by its value.
                let value = |_: &u16| [self.word(), self.word()][1];
                let arguments = rules.labels[usize::from(label)].iter().map(value).collect();
                Tree::Action(Event { label, arguments })
            }
            22 => Tree::Sequence(self.running(rules), self.running(rules)),
            23 => Tree::Choice(self.running(rules), self.running(rules)),
            24 => Tree::Star(self.running(rules)),
            25 => Tree::Parallel(self.mask(), self.running(rules), self.running(rules)),
            26 => Tree::Guard(Rc::new(self.condition()), self.running(rules)),
            30 => Tree::Done,
            code => panic!("{code} is no code of a running term"),
        })
    }
}
