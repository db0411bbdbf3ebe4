//! Random well-formed rule sets of many shapes.
//!
//! Document 01, "Blocks and the rule stream", items 2 to 5, everything in them: expressions with now and
//! before as far as each place allows them, guards, masks, nested quantifiers, calls of lower processes.
//! Well-formed means not refused 4 to 6; main may still be too large or too broad.

use super::random::Random;
use crate::rules::{Argument, Condition, Data, Function, Mask, Process, RuleSet, Term, NO_LABELS};

/// How large a rule set to generate: each number is a maximum.
#[derive(Clone, Copy, Debug)]
pub struct Shape {
    pub name: &'static str,
    pub domains: u16,
    pub elements: u16,
    pub labels: u16,
    pub functions: u16,
    pub processes: u16,
    pub data_depth: u32,
    pub term_depth: u32,
}

/// From sets that unfold to a few words to sets of several blocks.
pub const SHAPES: [Shape; 6] = [
    Shape {
        name: "tiny",
        domains: 1,
        elements: 2,
        labels: 2,
        functions: 1,
        processes: 2,
        data_depth: 1,
        term_depth: 2,
    },
    Shape {
        name: "small",
        domains: 3,
        elements: 3,
        labels: 4,
        functions: 3,
        processes: 3,
        data_depth: 2,
        term_depth: 4,
    },
    Shape {
        name: "nested",
        domains: 2,
        elements: 2,
        labels: 3,
        functions: 2,
        processes: 4,
        data_depth: 3,
        term_depth: 7,
    },
    Shape {
        name: "many",
        domains: 16,
        elements: 64,
        labels: 20,
        functions: 4,
        processes: 6,
        data_depth: 2,
        term_depth: 3,
    },
    Shape {
        name: "deep",
        domains: 4,
        elements: 6,
        labels: 6,
        functions: 5,
        processes: 5,
        data_depth: 7,
        term_depth: 9,
    },
    Shape {
        name: "long",
        domains: 16,
        elements: 64,
        labels: 64,
        functions: 16,
        processes: 32,
        data_depth: 2,
        term_depth: 5,
    },
];

/// How many variables an expression may use, and how many functions by now and by before.
#[derive(Clone, Copy)]
struct Names {
    variables: u16,
    now: u16,
    before: u16,
}

pub fn rule_set(random: &mut Random, shape: Shape) -> RuleSet {
    let domains: Vec<u16> =
        (0..random.between(1, shape.domains)).map(|_| random.between(1, shape.elements)).collect();
    let label = |random: &mut Random| {
        (0..random.between(0, 2)).map(|_| random.below(domains.len()) as u16).collect::<Vec<u16>>()
    };
    let labels: Vec<Vec<u16>> = (0..random.between(1, shape.labels)).map(|_| label(random)).collect();
    let count = random.between(0, shape.functions);
    let function = |random: &mut Random, number| Function {
        domain: random.below(domains.len()) as u16,
        at_start: data(random, Names { variables: 1, now: number, before: 0 }, shape.data_depth),
        at_label: labels
            .iter()
            .map(|parameters| Names { variables: 1 + parameters.len() as u16, now: number, before: count })
            .map(|names| data(random, names, shape.data_depth))
            .collect(),
    };
    let functions = (0..count).map(|number| function(random, number)).collect();
    let mut rules = RuleSet { domains, labels, functions, processes: Vec::new() };
    let count = random.between(1, shape.processes);
    for number in 1..=count {
        let most = if number == count { 0 } else { 4 };
        let parameters: Vec<u16> =
            (0..random.between(0, most)).map(|_| random.below(rules.domains.len()) as u16).collect();
        let term = term(random, &rules, &parameters, shape);
        rules.processes.push(Process { parameters, term });
    }
    rules
}

/// A random term for the next process of a rule set, with these parameters.
pub fn term(random: &mut Random, rules: &RuleSet, parameters: &[u16], shape: Shape) -> Term {
    TermMaking { random, rules, scope: parameters.to_vec(), data_depth: shape.data_depth }
        .term(shape.term_depth)
}

/// A random data expression of at most the given depth. Constants are mostly small; the largest one, 65,534,
/// occurs too.
fn data(random: &mut Random, names: Names, depth: u32) -> Data {
    let shallow = |random: &mut Random| data(random, names, depth.saturating_sub(1));
    match if depth == 0 { random.below(3) } else { random.below(10) } {
        0 => Data::Undefined,
        1 => Data::Constant(if random.chance(10) { 65534 } else { random.between(0, 70) }),
        2 | 3 if names.variables > 0 => Data::Variable(random.between(0, names.variables - 1)),
        4 => Data::plus(shallow(random), shallow(random)),
        5 => Data::minus(shallow(random), shallow(random)),
        6 => Data::choose(condition(random, names, depth - 1), shallow(random), shallow(random)),
        7 if names.now > 0 => Data::now(random.between(0, names.now - 1), shallow(random)),
        8 | 9 if names.before > 0 => Data::before(random.between(0, names.before - 1), shallow(random)),
        _ => Data::Constant(random.between(0, 3)),
    }
}

/// A random condition for a guard in a running term, which has no variables.
pub fn running_condition(random: &mut Random, rules: &RuleSet, depth: u32) -> Condition {
    condition(random, Names { variables: 0, now: rules.functions.len() as u16, before: 0 }, depth)
}

fn condition(random: &mut Random, names: Names, depth: u32) -> Condition {
    let shallow = |random: &mut Random| data(random, names, depth.saturating_sub(1));
    let inner = |random: &mut Random| condition(random, names, depth - 1);
    match if depth == 0 { random.below(3) } else { random.below(7) } {
        0 => Condition::True,
        1 | 3 => Condition::equal(shallow(random), shallow(random)),
        2 => Condition::less(shallow(random), shallow(random)),
        4 => Condition::and(inner(random), inner(random)),
        5 => Condition::or(inner(random), inner(random)),
        _ => Condition::negated(inner(random)),
    }
}

/// A process's term while it is generated: the rule set so far, and the domains of the variables in scope.
struct TermMaking<'a> {
    random: &'a mut Random,
    rules: &'a RuleSet,
    scope: Vec<u16>,
    data_depth: u32,
}

impl TermMaking<'_> {
    fn term(&mut self, depth: u32) -> Term {
        if depth == 0 {
            return self.leaf();
        }
        match self.random.below(12) {
            0 => self.leaf(),
            1 | 2 => Term::sequence(self.term(depth - 1), self.term(depth - 1)),
            3 => Term::choice(self.term(depth - 1), self.term(depth - 1)),
            4 => Term::star(self.term(depth - 1)),
            5 | 6 => Term::parallel(self.mask(), self.term(depth - 1), self.term(depth - 1)),
            7 => Term::guard(self.guard_condition(), self.term(depth - 1)),
            8 if self.scope.len() < 8 => {
                let (domain, inner) = self.quantified(depth);
                Term::choice_over(domain, inner)
            }
            9 if self.scope.len() < 8 => {
                let mask = self.mask();
                let (domain, inner) = self.quantified(depth);
                Term::parallel_over(domain, mask, inner)
            }
            10 if !self.rules.processes.is_empty() => self.call(),
            _ => self.action(),
        }
    }

    fn leaf(&mut self) -> Term {
        match self.random.below(4) {
            0 => Term::Internal,
            1 if !self.rules.processes.is_empty() => self.call(),
            _ => self.action(),
        }
    }

    fn action(&mut self) -> Term {
        let label = self.random.below(self.rules.labels.len());
        let arguments = self.arguments(&self.rules.labels[label]);
        Term::Action(label as u16, arguments)
    }

    fn call(&mut self) -> Term {
        let process = self.random.below(self.rules.processes.len());
        let arguments = self.arguments(&self.rules.processes[process].parameters);
        Term::Call(process as u16, arguments)
    }

    /// Arguments of the right domain: variables of that domain if there are any, else elements.
    fn arguments(&mut self, parameters: &[u16]) -> Vec<Argument> {
        let argument = |&domain: &u16| {
            let fitting: Vec<usize> =
                (0..self.scope.len()).filter(|&number| self.scope[number] == domain).collect();
            if fitting.is_empty() || self.random.chance(30) {
                Argument::Constant(self.random.between(0, self.rules.domains[usize::from(domain)] - 1))
            } else {
                Argument::Variable(*self.random.pick(&fitting) as u16)
            }
        };
        parameters.iter().map(argument).collect()
    }

    /// Half the masks are zero; each of the others contains each label with probability 1/2.
    fn mask(&mut self) -> Mask {
        let mut mask = NO_LABELS;
        if self.random.chance(50) {
            for label in 0..self.rules.labels.len() {
                mask[label / 16] |= (self.random.below(2) as u16) << (label % 16);
            }
        }
        mask
    }

    fn guard_condition(&mut self) -> Condition {
        let names =
            Names { variables: self.scope.len() as u16, now: self.rules.functions.len() as u16, before: 0 };
        condition(self.random, names, self.data_depth)
    }

    fn quantified(&mut self, depth: u32) -> (u16, Term) {
        let domain = self.random.below(self.rules.domains.len()) as u16;
        self.scope.push(domain);
        let inner = self.term(depth - 1);
        self.scope.pop();
        (domain, inner)
    }
}
