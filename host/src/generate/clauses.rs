//! One case for every clause of refusals 4, 5 and 6 that a tree can express, and similar cases that are
//! admitted.
//!
//! Document 01, "Blocks and the rule stream", items 3 to 5 and the paragraph on term codes; the table's rows
//! 4 to 6. (Words that no tree can express, such as codes out of range, are in `faults`.)

use super::ends::process;
use super::{Case, Expected, Taker};
use crate::refusal::{FORM, KIND, REFERENCE};
use crate::rules::{mask_of, Argument, Condition, Data, Function, Mask, RuleSet, Term, NO_LABELS};

use Argument::{Constant, Variable};

const ADMITTED: Expected = Expected::Admitted;
const BAD_FORM: Expected = Expected::Refused(FORM);
const BAD_REFERENCE: Expected = Expected::Refused(REFERENCE);
const BAD_KIND: Expected = Expected::Refused(KIND);

/// Domains of 2, 3 and 3 elements; labels a, b(0), c(1, 2); functions over domains 0 and 1; a process with
/// parameters of domains 0 and 1, one without parameters, and main.
pub fn base() -> RuleSet {
    let keep = |function| Data::before(function, Data::Variable(0));
    let set_if = |value| Data::choose(Condition::equal(Data::Variable(0), Data::Variable(1)), value, keep(0));
    let first = Function {
        domain: 0,
        at_start: Data::Constant(0),
        at_label: vec![keep(0), set_if(Data::Constant(1)), keep(0)],
    };
    let second = Function {
        domain: 1,
        at_start: Data::now(0, Data::Variable(0)),
        at_label: vec![keep(1), Data::now(0, Data::Variable(1)), Data::plus(Data::Variable(2), keep(1))],
    };
    let held = Condition::equal(Data::now(1, Data::Variable(1)), Data::Constant(0));
    let round = Term::sequence(
        Term::guard(held, Term::action(1, &[Variable(0)])),
        Term::action(2, &[Variable(1), Constant(2)]),
    );
    let pairs = Term::choice_over(
        1,
        Term::parallel_over(2, mask_of(&[2]), Term::action(2, &[Variable(0), Variable(1)])),
    );
    let calls = Term::choice_over(1, Term::call(0, &[Variable(0), Variable(1)]));
    RuleSet {
        domains: vec![2, 3, 3],
        labels: vec![vec![], vec![0], vec![1, 2]],
        functions: vec![first, second],
        processes: vec![
            process(&[0, 1], Term::star(round)),
            process(&[], pairs),
            process(
                &[],
                Term::parallel_over(0, NO_LABELS, Term::parallel(NO_LABELS, calls, Term::call(1, &[]))),
            ),
        ],
    }
}

/// The base rule set after an edit.
fn edited(take: Taker, name: &str, expected: Expected, edit: impl FnOnce(&mut RuleSet)) {
    let mut rules = base();
    edit(&mut rules);
    take(Case::of_rules(name, &rules, expected));
}

/// The base rule set with main's term replaced.
fn in_main(take: Taker, name: &str, expected: Expected, term: Term) {
    edited(take, name, expected, |rules| rules.processes[2].term = term);
}

/// The base rule set with one expression of a function replaced: the empty trace's (`None`) or a label's.
fn in_function(
    take: Taker,
    name: &str,
    expected: Expected,
    function: usize,
    label: Option<usize>,
    data: Data,
) {
    edited(take, name, expected, |rules| match label {
        Some(label) => rules.functions[function].at_label[label] = data,
        None => rules.functions[function].at_start = data,
    });
}

fn guarded(data: Data) -> Term {
    Term::guard(Condition::equal(Data::Constant(0), data), Term::Internal)
}

pub fn cases(take: Taker) {
    edited(take, "the base", ADMITTED, |_| {});
    domain_numbers(take);
    variables(take);
    function_numbers(take);
    places_of_before(take);
    constants(take);
    term_numbers(take);
    masks(take);
    constant_arguments(take);
    variable_arguments(take);
    data_of_any_domain(take);
}

fn domain_numbers(take: Taker) {
    edited(take, "label's only parameter of domain 3", BAD_REFERENCE, |rules| rules.labels[1] = vec![3]);
    edited(take, "label's second parameter of domain 3", BAD_REFERENCE, |rules| rules.labels[2] = vec![1, 3]);
    edited(take, "function of domain 3", BAD_REFERENCE, |rules| rules.functions[1].domain = 3);
    edited(take, "function of domain 2", ADMITTED, |rules| rules.functions[1].domain = 2);
    edited(take, "process parameter of domain 3", BAD_REFERENCE, |rules| {
        rules.processes[0].parameters = vec![0, 3]
    });
    edited(take, "four parameters, the last of domain 3", BAD_REFERENCE, |rules| {
        rules.processes[0].parameters = vec![0, 1, 2, 3]
    });
    in_main(take, "choice over domain 3", BAD_REFERENCE, Term::choice_over(3, Term::Internal));
    in_main(take, "parallel over domain 3", BAD_REFERENCE, Term::parallel_over(3, NO_LABELS, Term::Internal));
    in_main(take, "choice over domain 2", ADMITTED, Term::choice_over(2, Term::Internal));
}

fn variables(take: Taker) {
    for (label, count) in [(None, 1), (Some(0), 1), (Some(1), 2), (Some(2), 3)] {
        let name = format!("variable in an expression with {count}");
        in_function(take, &name, ADMITTED, 0, label, Data::Variable(count - 1));
        in_function(take, &name, BAD_REFERENCE, 0, label, Data::Variable(count));
        in_function(take, &name, BAD_REFERENCE, 0, label, Data::Variable(65535));
    }
    in_main(take, "guard of main with a variable", BAD_REFERENCE, guarded(Data::Variable(0)));
    in_main(take, "guard under one quantifier", ADMITTED, Term::choice_over(0, guarded(Data::Variable(0))));
    in_main(
        take,
        "guard one variable too far",
        BAD_REFERENCE,
        Term::choice_over(0, guarded(Data::Variable(1))),
    );
    let outside = Term::sequence(Term::choice_over(0, Term::Internal), guarded(Data::Variable(0)));
    in_main(take, "variable after its quantifier", BAD_REFERENCE, outside);
    let outside = Term::sequence(Term::choice_over(0, Term::Internal), Term::action(1, &[Variable(0)]));
    in_main(take, "argument after its quantifier", BAD_REFERENCE, outside);
    edited(take, "guard with a parameter too far", BAD_REFERENCE, |rules| {
        rules.processes[0].term = guarded(Data::Variable(2))
    });
}

fn function_numbers(take: Taker) {
    let of = |name: fn(u16, Data) -> Data, function| name(function, Data::Constant(0));
    for label in [None, Some(0), Some(2)] {
        in_function(take, "function 0 with now of itself", BAD_REFERENCE, 0, label, of(Data::now, 0));
        in_function(take, "function 0 with now of a later one", BAD_REFERENCE, 0, label, of(Data::now, 1));
        in_function(take, "function 1 with now of a lower one", ADMITTED, 1, label, of(Data::now, 0));
        in_function(take, "function 1 with now of itself", BAD_REFERENCE, 1, label, of(Data::now, 1));
        in_function(take, "function 1 with now of none", BAD_REFERENCE, 1, label, of(Data::now, 2));
    }
    for label in [Some(0), Some(1), Some(2)] {
        for function in [0, 1] {
            in_function(take, "before of function 0", ADMITTED, function, label, of(Data::before, 0));
            in_function(take, "before of function 1", ADMITTED, function, label, of(Data::before, 1));
            in_function(take, "before of none", BAD_REFERENCE, function, label, of(Data::before, 2));
        }
    }
    in_main(take, "guard with now of the last function", ADMITTED, guarded(of(Data::now, 1)));
    in_main(take, "guard with now of none", BAD_REFERENCE, guarded(of(Data::now, 2)));
    edited(take, "guard with now, no function at all", BAD_REFERENCE, |rules| {
        rules.functions.clear();
        rules.processes = vec![process(&[], guarded(of(Data::now, 0)))];
    });
}

/// Where before is not allowed, its code is refused 4, also if its number would be refused 5.
fn places_of_before(take: Taker) {
    for function in [0, 1, 2, 65535] {
        let before = || Data::before(function, Data::Constant(0));
        in_function(take, "before in an empty-trace expression", BAD_FORM, 1, None, before());
        let deeper =
            Data::choose(Condition::less(before(), Data::Undefined), Data::Undefined, Data::Undefined);
        in_function(take, "before deeper in an empty-trace expression", BAD_FORM, 0, None, deeper);
        in_main(take, "before in a guard", BAD_FORM, guarded(before()));
        in_main(take, "before under now in a guard", BAD_FORM, guarded(Data::now(0, before())));
        let other = Term::choice_over(
            0,
            Term::sequence(Term::Internal, guarded(Data::plus(Data::Undefined, before()))),
        );
        in_main(take, "before deeper in a guard", BAD_FORM, other);
    }
}

fn constants(take: Taker) {
    for (value, expected) in [(65534, ADMITTED), (65535, BAD_FORM)] {
        in_function(take, "constant at start", expected, 0, None, Data::Constant(value));
        in_function(take, "constant at a label", expected, 1, Some(2), Data::Constant(value));
        in_main(take, "constant in a guard", expected, guarded(Data::Constant(value)));
        in_function(
            take,
            "constant under before",
            expected,
            0,
            Some(0),
            Data::before(0, Data::Constant(value)),
        );
        in_main(take, "constant under now", expected, guarded(Data::now(0, Data::Constant(value))));
    }
    in_main(take, "argument 65,535", BAD_FORM, Term::action(1, &[Constant(65535)]));
    in_main(take, "call's argument 65,535", BAD_FORM, Term::call(0, &[Constant(1), Constant(65535)]));
}

fn term_numbers(take: Taker) {
    in_main(take, "last label", ADMITTED, Term::action(2, &[Constant(0), Constant(0)]));
    in_main(take, "label 3", BAD_REFERENCE, Term::action(3, &[]));
    in_main(take, "label 65,535", BAD_REFERENCE, Term::action(65535, &[]));
    in_main(take, "main calls itself", BAD_REFERENCE, Term::call(2, &[]));
    in_main(take, "main calls a process that is not there", BAD_REFERENCE, Term::call(3, &[]));
    in_main(take, "main calls the process before it", ADMITTED, Term::call(1, &[]));
    for callee in [0, 1, 2] {
        edited(take, "process 0 calls", BAD_REFERENCE, |rules| {
            rules.processes[0].term = Term::call(callee, &[])
        });
    }
    let call =
        |callee| move |rules: &mut RuleSet| rules.processes[1].term = Term::call(callee, &[Constant(0); 2]);
    edited(take, "process 1 calls process 0", ADMITTED, call(0));
    edited(take, "process 1 calls itself", BAD_REFERENCE, call(1));
    edited(take, "process 1 calls main", BAD_REFERENCE, call(2));
}

/// Each mask bit in turn for several counts of labels, in both terms that have a mask.
fn masks(take: Taker) {
    for labels in [1usize, 3, 15, 16, 17, 32, 33, 48, 63, 64] {
        let whole: Mask = mask_of(&(0..labels as u16).collect::<Vec<u16>>());
        masked(take, labels, whole, ADMITTED);
        for bit in 0..64 {
            masked(
                take,
                labels,
                mask_of(&[bit]),
                if usize::from(bit) < labels { ADMITTED } else { BAD_REFERENCE },
            );
        }
    }
}

fn masked(take: Taker, labels: usize, mask: Mask, expected: Expected) {
    for term in
        [Term::parallel(mask, Term::Internal, Term::Internal), Term::parallel_over(0, mask, Term::Internal)]
    {
        let rules = RuleSet {
            domains: vec![2],
            labels: vec![vec![]; labels],
            functions: vec![],
            processes: vec![process(&[], term)],
        };
        take(Case::of_rules(format!("mask {mask:?} for {labels} labels"), &rules, expected));
    }
}

/// Constant arguments below the domain's size or not, in both terms that have arguments and both argument
/// positions.
fn constant_arguments(take: Taker) {
    for (value, expected) in [(0, ADMITTED), (1, ADMITTED), (2, BAD_KIND), (3, BAD_KIND), (65534, BAD_KIND)] {
        let called = Term::call(0, &[Constant(value), Constant(0)]);
        in_main(take, "constant for a domain of 2", expected, Term::action(1, &[Constant(value)]));
        in_main(take, "constant for a call's domain of 2", expected, called);
    }
    for (value, expected) in [(2, ADMITTED), (3, BAD_KIND)] {
        let action = Term::action(2, &[Constant(2), Constant(value)]);
        in_main(take, "second constant for a domain of 3", expected, action);
    }
}

/// Variables of the parameter's domain, of a smaller one, of another one of equal size, and undefined ones;
/// under quantifiers over domains 0, 1 and 2, of which the last two have three elements each.
fn variable_arguments(take: Taker) {
    let under = |term| Term::choice_over(0, Term::choice_over(1, Term::choice_over(2, term)));
    let of_action = [
        ("variables that fit", ADMITTED, [1, 2]),
        ("variable of a smaller domain", BAD_KIND, [0, 2]),
        ("variable of another domain of equal size", BAD_KIND, [2, 2]),
        ("second variable of another domain of equal size", BAD_KIND, [1, 1]),
        ("variable not in scope", BAD_REFERENCE, [3, 2]),
        ("second variable not in scope", BAD_REFERENCE, [1, 65535]),
    ];
    for (name, expected, numbers) in of_action {
        in_main(take, name, expected, under(Term::action(2, &numbers.map(Variable))));
    }
    let of_call = [
        ("call's variables that fit", ADMITTED, [0, 1]),
        ("call's variable of a larger domain", BAD_KIND, [1, 1]),
        ("call's variable of another domain of equal size", BAD_KIND, [0, 2]),
        ("call's variable not in scope", BAD_REFERENCE, [0, 3]),
    ];
    for (name, expected, numbers) in of_call {
        in_main(take, name, expected, under(Term::call(0, &numbers.map(Variable))));
    }
    in_main(take, "variable in main without any", BAD_REFERENCE, Term::action(1, &[Variable(0)]));
}

/// The operand of now and before is not an argument in the sense of refusal 6: any value and any variable is
/// allowed.
fn data_of_any_domain(take: Taker) {
    let now = |data| guarded(Data::now(0, data));
    let under = |term| Term::choice_over(0, Term::choice_over(1, term));
    in_main(take, "now of a constant outside the domain", ADMITTED, now(Data::Constant(99)));
    in_main(take, "now of a variable of another domain", ADMITTED, under(now(Data::Variable(1))));
    let outside = Data::before(1, Data::Constant(99));
    in_function(take, "before of a constant outside the domain", ADMITTED, 0, Some(0), outside);
    let other = Data::before(1, Data::Variable(1));
    in_function(take, "before of a variable of another domain", ADMITTED, 1, Some(1), other);
}
