//! Every count and size at both ends of its range and just outside, each in a rule set that is otherwise
//! right.
//!
//! Document 01, "Blocks and the rule stream", items 2 to 5, and refusal 4: "count, size, code or
//! constant out of range".

use super::{Case, Expected, Taker};
use crate::refusal::FORM;
use crate::rules::{Argument, Data, Function, Process, RuleSet, Term, NO_LABELS};

/// The smallest rule set: one domain of one element, one label, main an internal step.
pub fn smallest() -> RuleSet {
    RuleSet {
        domains: vec![1],
        labels: vec![vec![]],
        functions: vec![],
        processes: vec![process(&[], Term::Internal)],
    }
}

pub fn process(parameters: &[u16], term: Term) -> Process {
    Process { parameters: parameters.to_vec(), term }
}

/// The smallest rule set with another main.
pub fn with_main(term: Term) -> RuleSet {
    RuleSet { processes: vec![process(&[], term)], ..smallest() }
}

pub fn cases(take: Taker) {
    domains(take);
    labels(take);
    functions(take);
    processes(take);
    variables(take);
}

fn within(right: bool) -> Expected {
    if right {
        Expected::Admitted
    } else {
        Expected::Refused(FORM)
    }
}

fn domains(take: Taker) {
    for count in [0, 1, 2, 15, 16, 17, 18] {
        let rules = RuleSet { domains: vec![2; count], ..smallest() };
        take(Case::of_rules(format!("{count} domains"), &rules, within((1..=16).contains(&count))));
    }
    for size in [0, 1, 2, 63, 64, 65, 66] {
        let expected = within((1..=64).contains(&size));
        let first = RuleSet { domains: vec![size, 3], ..smallest() };
        let last = RuleSet { domains: vec![3, 64, 1, size], ..smallest() };
        take(Case::of_rules(format!("first domain of {size}"), &first, expected));
        take(Case::of_rules(format!("last domain of {size}"), &last, expected));
    }
}

fn labels(take: Taker) {
    for count in [0, 1, 2, 63, 64, 65, 66] {
        let rules = RuleSet { labels: vec![vec![]; count], ..smallest() };
        take(Case::of_rules(format!("{count} labels"), &rules, within((1..=64).contains(&count))));
    }
    for count in 0..=4 {
        let first = RuleSet { labels: vec![vec![0; count], vec![]], ..smallest() };
        let last = RuleSet { labels: vec![vec![], vec![0; count]], ..smallest() };
        take(Case::of_rules(format!("first label of {count} parameters"), &first, within(count <= 2)));
        take(Case::of_rules(format!("last label of {count} parameters"), &last, within(count <= 2)));
    }
}

fn functions(take: Taker) {
    let function = Function { domain: 0, at_start: Data::Undefined, at_label: vec![Data::Undefined] };
    for count in [0, 1, 2, 15, 16, 17, 18] {
        let rules = RuleSet { functions: vec![function.clone(); count], ..smallest() };
        take(Case::of_rules(format!("{count} functions"), &rules, within(count <= 16)));
    }
    let missing = Function { at_label: vec![], ..function.clone() };
    let rules = RuleSet { functions: vec![missing], ..smallest() };
    take(Case::of_rules("a label's expression missing", &rules, Expected::Open));
    let extra = Function { at_label: vec![Data::Undefined; 2], ..function };
    let rules = RuleSet { functions: vec![extra], ..smallest() };
    take(Case::of_rules("an expression too many", &rules, Expected::Refused(FORM)));
}

fn processes(take: Taker) {
    for count in [0, 1, 2, 31, 32, 33, 34] {
        let rules = RuleSet { processes: vec![process(&[], Term::Internal); count], ..smallest() };
        take(Case::of_rules(format!("{count} processes"), &rules, within((1..=32).contains(&count))));
    }
    for count in 0..=6 {
        let rules = RuleSet {
            processes: vec![process(&vec![0; count], Term::Internal), process(&[], Term::Internal)],
            ..smallest()
        };
        take(Case::of_rules(format!("a process of {count} parameters"), &rules, within(count <= 4)));
        let main = process(&vec![0; count], Term::Internal);
        let alone = RuleSet { processes: vec![main.clone()], ..smallest() };
        let last = RuleSet { processes: vec![process(&[0], Term::Internal), main], ..smallest() };
        take(Case::of_rules(format!("main alone of {count} parameters"), &alone, within(count == 0)));
        take(Case::of_rules(format!("main of {count} parameters"), &last, within(count == 0)));
    }
}

/// At most 8 variables may be in scope, parameters and bound ones together; the code that would bind a ninth
/// is refused, whatever its domain.
fn variables(take: Taker) {
    for parameters in 0..=4u16 {
        for bound in 7 - parameters..=10 - parameters {
            for parallel in [false, true] {
                let rules = quantified(parameters, bound, parallel, 0);
                let name = format!("{parameters} parameters and {bound} bound, parallel {parallel}");
                take(Case::of_rules(name, &rules, within(parameters + bound <= 8)));
            }
        }
        let rules = quantified(parameters, 9 - parameters, false, 7);
        take(Case::of_rules("ninth variable of no domain", &rules, Expected::Refused(FORM)));
        let rules = quantified(parameters, 9 - parameters, true, 7);
        take(Case::of_rules("ninth variable of no domain, parallel", &rules, Expected::Refused(FORM)));
    }
    let eight = || nested(8, false, 0, Term::Internal);
    let rules = with_main(Term::sequence(eight(), Term::choice(eight(), eight())));
    take(Case::of_rules("eight variables, left and bound again", &rules, Expected::Admitted));
}

/// A process with the given numbers of parameters and of quantifiers, the innermost over the given domain,
/// with an action whose argument is the last variable; and main, which calls it.
fn quantified(parameters: u16, bound: u16, parallel: bool, innermost: u16) -> RuleSet {
    let last = Argument::Variable((parameters + bound).saturating_sub(1));
    let term = nested(bound, parallel, innermost, Term::action(0, &[last]));
    let arguments = vec![Argument::Constant(0); usize::from(parameters)];
    RuleSet {
        domains: vec![1],
        labels: vec![vec![0]],
        functions: vec![],
        processes: vec![
            process(&vec![0; usize::from(parameters)], term),
            process(&[], Term::call(0, &arguments)),
        ],
    }
}

fn nested(bound: u16, parallel: bool, innermost: u16, inner: Term) -> Term {
    (0..bound).fold(inner, |term, depth| {
        let domain = if depth == 0 { innermost } else { 0 };
        if parallel {
            Term::parallel_over(domain, NO_LABELS, term)
        } else {
            Term::choice_over(domain, term)
        }
    })
}
