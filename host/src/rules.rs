//! A rule set as a tree, and its spelling as stream words.
//!
//! Document 01, "Values and conditions" (codes 0 to 13) and "Blocks and the rule stream" (items 1 to 5, codes
//! 20 to 29). Nothing is checked here: any number is allowed anywhere, so that faulty rule sets can be built
//! as well as right ones.

use crate::blocks;

/// The only edition so far; it is the stream's first word.
pub const EDITION: u16 = 1;

/// A data expression, codes 0 to 7.
#[derive(Clone, Debug, PartialEq, Eq)]
pub enum Data {
    Undefined,
    Constant(u16),
    Variable(u16),
    Add(Box<Data>, Box<Data>),
    Subtract(Box<Data>, Box<Data>),
    If(Box<Condition>, Box<Data>, Box<Data>),
    Now(u16, Box<Data>),
    Before(u16, Box<Data>),
}

/// A condition, codes 8 to 13.
#[derive(Clone, Debug, PartialEq, Eq)]
pub enum Condition {
    Equal(Box<Data>, Box<Data>),
    Less(Box<Data>, Box<Data>),
    And(Box<Condition>, Box<Condition>),
    Or(Box<Condition>, Box<Condition>),
    Not(Box<Condition>),
    True,
}

/// An argument of an action or a call: code 1 or 2 only.
#[derive(Clone, Copy, Debug, PartialEq, Eq)]
pub enum Argument {
    Constant(u16),
    Variable(u16),
}

/// Labels on which the sides of a parallel synchronise: bit j of word i is label 16 × i + j.
pub type Mask = [u16; 4];

/// The mask of a parallel whose sides do not synchronise.
pub const NO_LABELS: Mask = [0; 4];

/// The mask with these labels, each below 64.
pub fn mask_of(labels: &[u16]) -> Mask {
    let mut mask = NO_LABELS;
    for &label in labels {
        mask[usize::from(label / 16)] |= 1 << (label % 16);
    }
    mask
}

/// A process term as rules write it, codes 20 to 29.
#[derive(Clone, Debug, PartialEq, Eq)]
pub enum Term {
    Internal,
    Action(u16, Vec<Argument>),
    Sequence(Box<Term>, Box<Term>),
    Choice(Box<Term>, Box<Term>),
    Star(Box<Term>),
    Parallel(Mask, Box<Term>, Box<Term>),
    Guard(Box<Condition>, Box<Term>),
    ChoiceOver(u16, Box<Term>),
    ParallelOver(u16, Mask, Box<Term>),
    Call(u16, Vec<Argument>),
}

/// An attribute function of one parameter: its domain, its value over the empty trace, and one
/// expression per label.
#[derive(Clone, Debug, PartialEq, Eq)]
pub struct Function {
    pub domain: u16,
    pub at_start: Data,
    pub at_label: Vec<Data>,
}

/// A process: the domains of its parameters, and its term.
#[derive(Clone, Debug, PartialEq, Eq)]
pub struct Process {
    pub parameters: Vec<u16>,
    pub term: Term,
}

/// Items 2 to 5 of the stream: domains by their sizes, labels by their parameters' domains, functions,
/// processes. The last process is main.
#[derive(Clone, Debug, PartialEq, Eq)]
pub struct RuleSet {
    pub domains: Vec<u16>,
    pub labels: Vec<Vec<u16>>,
    pub functions: Vec<Function>,
    pub processes: Vec<Process>,
}

impl Data {
    pub fn plus(left: Data, right: Data) -> Data {
        Data::Add(Box::new(left), Box::new(right))
    }

    pub fn minus(left: Data, right: Data) -> Data {
        Data::Subtract(Box::new(left), Box::new(right))
    }

    pub fn choose(condition: Condition, yes: Data, no: Data) -> Data {
        Data::If(Box::new(condition), Box::new(yes), Box::new(no))
    }

    pub fn now(function: u16, argument: Data) -> Data {
        Data::Now(function, Box::new(argument))
    }

    pub fn before(function: u16, argument: Data) -> Data {
        Data::Before(function, Box::new(argument))
    }

    /// Appends the words of this expression, codes before operands.
    pub fn spell(&self, words: &mut Vec<u16>) {
        match self {
            Data::Undefined => words.push(0),
            Data::Constant(value) => words.extend([1, *value]),
            Data::Variable(number) => words.extend([2, *number]),
            Data::Add(left, right) => spell_data(3, [left, right], words),
            Data::Subtract(left, right) => spell_data(4, [left, right], words),
            Data::If(condition, yes, no) => {
                words.push(5);
                condition.spell(words);
                yes.spell(words);
                no.spell(words);
            }
            Data::Now(function, argument) => {
                words.extend([6, *function]);
                argument.spell(words);
            }
            Data::Before(function, argument) => {
                words.extend([7, *function]);
                argument.spell(words);
            }
        }
    }
}

impl Condition {
    pub fn equal(left: Data, right: Data) -> Condition {
        Condition::Equal(Box::new(left), Box::new(right))
    }

    pub fn less(left: Data, right: Data) -> Condition {
        Condition::Less(Box::new(left), Box::new(right))
    }

    pub fn and(left: Condition, right: Condition) -> Condition {
        Condition::And(Box::new(left), Box::new(right))
    }

    pub fn or(left: Condition, right: Condition) -> Condition {
        Condition::Or(Box::new(left), Box::new(right))
    }

    pub fn negated(inner: Condition) -> Condition {
        Condition::Not(Box::new(inner))
    }

    pub fn spell(&self, words: &mut Vec<u16>) {
        match self {
            Condition::Equal(left, right) => spell_data(8, [left, right], words),
            Condition::Less(left, right) => spell_data(9, [left, right], words),
            Condition::And(left, right) => spell_conditions(10, [left, right], words),
            Condition::Or(left, right) => spell_conditions(11, [left, right], words),
            Condition::Not(inner) => {
                words.push(12);
                inner.spell(words);
            }
            Condition::True => words.push(13),
        }
    }
}

fn spell_data(code: u16, operands: [&Data; 2], words: &mut Vec<u16>) {
    words.push(code);
    operands.iter().for_each(|operand| operand.spell(words));
}

fn spell_conditions(code: u16, operands: [&Condition; 2], words: &mut Vec<u16>) {
    words.push(code);
    operands.iter().for_each(|operand| operand.spell(words));
}

fn spell_arguments(arguments: &[Argument], words: &mut Vec<u16>) {
    for argument in arguments {
        match argument {
            Argument::Constant(value) => words.extend([1, *value]),
            Argument::Variable(number) => words.extend([2, *number]),
        }
    }
}

impl Term {
    pub fn action(label: u16, arguments: &[Argument]) -> Term {
        Term::Action(label, arguments.to_vec())
    }

    pub fn sequence(left: Term, right: Term) -> Term {
        Term::Sequence(Box::new(left), Box::new(right))
    }

    pub fn choice(left: Term, right: Term) -> Term {
        Term::Choice(Box::new(left), Box::new(right))
    }

    pub fn star(inner: Term) -> Term {
        Term::Star(Box::new(inner))
    }

    pub fn parallel(mask: Mask, left: Term, right: Term) -> Term {
        Term::Parallel(mask, Box::new(left), Box::new(right))
    }

    pub fn guard(condition: Condition, inner: Term) -> Term {
        Term::Guard(Box::new(condition), Box::new(inner))
    }

    pub fn choice_over(domain: u16, inner: Term) -> Term {
        Term::ChoiceOver(domain, Box::new(inner))
    }

    pub fn parallel_over(domain: u16, mask: Mask, inner: Term) -> Term {
        Term::ParallelOver(domain, mask, Box::new(inner))
    }

    pub fn call(process: u16, arguments: &[Argument]) -> Term {
        Term::Call(process, arguments.to_vec())
    }

    pub fn spell(&self, words: &mut Vec<u16>) {
        match self {
            Term::Internal => words.push(20),
            Term::Action(label, arguments) => {
                words.extend([21, *label]);
                spell_arguments(arguments, words);
            }
            Term::Sequence(left, right) => spell_terms(&[22], &[left, right], words),
            Term::Choice(left, right) => spell_terms(&[23], &[left, right], words),
            Term::Star(inner) => spell_terms(&[24], &[inner], words),
            Term::Parallel([a, b, c, d], left, right) => {
                spell_terms(&[25, *a, *b, *c, *d], &[left, right], words)
            }
            Term::Guard(condition, inner) => {
                words.push(26);
                condition.spell(words);
                inner.spell(words);
            }
            Term::ChoiceOver(domain, inner) => spell_terms(&[27, *domain], &[inner], words),
            Term::ParallelOver(domain, [a, b, c, d], inner) => {
                spell_terms(&[28, *domain, *a, *b, *c, *d], &[inner], words);
            }
            Term::Call(process, arguments) => {
                words.extend([29, *process]);
                spell_arguments(arguments, words);
            }
        }
    }
}

fn spell_terms(head: &[u16], operands: &[&Term], words: &mut Vec<u16>) {
    words.extend_from_slice(head);
    operands.iter().for_each(|operand| operand.spell(words));
}

/// A count as a word. Faulty sets have a few entries too many, but never more than a word can count.
pub fn count_of<T>(entries: &[T]) -> u16 {
    u16::try_from(entries.len()).expect("a count fits into a word")
}

/// A count, then the numbers.
fn counted(numbers: &[u16], words: &mut Vec<u16>) {
    words.push(count_of(numbers));
    words.extend_from_slice(numbers);
}

impl RuleSet {
    /// Items 2 to 5, each as its own list of words: the stream after its first two words.
    pub fn sections(&self) -> [Vec<u16>; 4] {
        let mut sections: [Vec<u16>; 4] = Default::default();
        let [domains, labels, functions, processes] = &mut sections;
        counted(&self.domains, domains);
        labels.push(count_of(&self.labels));
        self.labels.iter().for_each(|parameters| counted(parameters, labels));
        functions.push(count_of(&self.functions));
        for function in &self.functions {
            functions.push(function.domain);
            function.at_start.spell(functions);
            function.at_label.iter().for_each(|data| data.spell(functions));
        }
        processes.push(count_of(&self.processes));
        for process in &self.processes {
            counted(&process.parameters, processes);
            process.term.spell(processes);
        }
        sections
    }

    /// The used words of the stream: edition, number of blocks, items 2 to 5.
    pub fn stream(&self) -> Vec<u16> {
        let mut words = vec![EDITION, 0];
        self.sections().iter().for_each(|section| words.extend_from_slice(section));
        words[1] =
            u16::try_from(blocks::blocks_for(words.len())).expect("a count of blocks fits into a word");
        words
    }

    /// The block file: as few blocks as hold the stream.
    pub fn file(&self) -> Vec<u8> {
        blocks::file_of(&self.stream())
    }
}
