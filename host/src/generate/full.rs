//! The largest files: 64 blocks filled to the last word with functions and processes, for benchmarks and
//! tests; one is random, the other repeats a few phrases over and over, as the rules of a large cabinet
//! would.

use super::lengthened;
use super::random::Random;
use super::well_formed::{rule_set, term, Shape};
use crate::blocks::MOST_WORDS;
use crate::rules::{Argument, Condition, Data, Function, Process, RuleSet, Term, NO_LABELS};

/// Many labels and functions, few words in each expression.
const DEFINITIONS: Shape = Shape {
    name: "full",
    domains: 16,
    elements: 64,
    labels: 64,
    functions: 16,
    processes: 1,
    data_depth: 4,
    term_depth: 3,
};

/// An admitted random rule set of exactly 64 × 254 words, so that a processor's branch prediction cannot
/// learn its codes.
pub fn rules() -> RuleSet {
    let mut random = Random::new(0);
    let mut rules = definitions(&mut random);
    let main = Process { parameters: Vec::new(), term: interleaved_stars(&rules) };
    for left in (1..=31).rev() {
        let goal = (MOST_WORDS - length_with(&rules, &main)) / left;
        let process = filled_process(&mut random, &rules, goal);
        rules.processes.push(process);
    }
    rules.processes.push(main);
    filled_up(rules)
}

/// The first function's empty-trace expression lengthened so that the stream has `MOST_WORDS` words.
fn filled_up(mut rules: RuleSet) -> RuleSet {
    let missing = MOST_WORDS - rules.stream().len();
    let first = &mut rules.functions[0];
    first.at_start = lengthened(first.at_start.clone(), missing);
    rules
}

/// An admitted rule set of exactly 64 × 254 words as a large cabinet would have it: 64 labels; 16 functions,
/// whose expression for every label is "a constant if the parameter is the label's argument, else before"; 31
/// processes of guarded choices; main runs two of them.
pub fn large_cabinet() -> RuleSet {
    let labels: Vec<Vec<u16>> = (0..64).map(|label| vec![label % 16]).collect();
    let function = |number: u16| {
        let mine = || Condition::equal(Data::Variable(0), Data::Variable(1));
        let kept = || Data::before(number, Data::Variable(0));
        let expression = |label: u16| Data::choose(mine(), Data::Constant(label), kept());
        Function { domain: number, at_start: Data::Constant(0), at_label: (0..64).map(expression).collect() }
    };
    let phrase = |number: u16, label: u16| {
        let free = Condition::equal(Data::now(number % 16, Data::Variable(0)), Data::Constant(label));
        Term::guard(free, Term::action(16 * (label % 4) + number % 16, &[Argument::Variable(0)]))
    };
    let process = |number: u16| {
        let choices = (1..9).fold(phrase(number, 0), |rest, label| Term::choice(phrase(number, label), rest));
        Process { parameters: vec![number % 16], term: Term::star(choices) }
    };
    let side = |number| Term::parallel_over(number, NO_LABELS, Term::call(number, &[Argument::Variable(0)]));
    let main = Process { parameters: Vec::new(), term: Term::parallel(NO_LABELS, side(0), side(1)) };
    filled_up(RuleSet {
        domains: vec![8; 16],
        labels,
        functions: (0..16).map(function).collect(),
        processes: (0..31).map(process).chain([main]).collect(),
    })
}

/// Domains, labels and functions that take between a third and two thirds of the stream.
fn definitions(random: &mut Random) -> RuleSet {
    loop {
        let mut rules = rule_set(random, DEFINITIONS);
        rules.processes.clear();
        if (MOST_WORDS / 3..MOST_WORDS * 2 / 3).contains(&rules.stream().len()) {
            return rules;
        }
    }
}

/// Main: some labels without parameters, each in a star of its own, all in parallel.
fn interleaved_stars(rules: &RuleSet) -> Term {
    let bare = (0..).zip(&rules.labels).filter(|(_, parameters)| parameters.is_empty());
    let star = |(label, _)| Term::star(Term::action(label, &[]));
    bare.take(8).map(star).fold(Term::Internal, |sides, star| Term::parallel(NO_LABELS, star, sides))
}

fn length_with(rules: &RuleSet, main: &Process) -> usize {
    let mut whole = rules.clone();
    whole.processes.push(main.clone());
    // `lengthened` cannot add exactly one word, so two words are reserved for the last filling.
    whole.stream().len() + 2
}

/// A process of at most `goal` words: random terms in sequence until the next would exceed it.
fn filled_process(random: &mut Random, rules: &RuleSet, goal: usize) -> Process {
    let parameters: Vec<u16> = (0..2).map(|_| random.below(rules.domains.len()) as u16).collect();
    let mut body = Term::Internal;
    let mut words = 2 + parameters.len();
    loop {
        let part = term(random, rules, &parameters, DEFINITIONS);
        let mut spelled = Vec::new();
        part.spell(&mut spelled);
        words += 1 + spelled.len();
        if words > goal {
            return Process { parameters, term: body };
        }
        body = Term::sequence(part, body);
    }
}
