//! Main at the limits: G 8,192 and 8,193, W 65,535 and 65,536, reached in each way that the definitions
//! allow; and measures that do not fit a word, or a number of 32 or 64 bits.
//!
//! Document 01, "Unfolding, size and breadth", refusals 7 and 8, 7 before 8. Only main is judged.

use super::ends::{process, with_main};
use super::{condition_of, term_of, Case, Expected, Taker};
use crate::examples::copies_of_choice;
use crate::refusal::{BREADTH, SIZE};
use crate::rules::{mask_of, RuleSet, Term, NO_LABELS};
use crate::{Sizes, MOST_BREADTH, MOST_REACH};

const TOO_LARGE: Expected = Expected::Refused(SIZE);
const TOO_BROAD: Expected = Expected::Refused(BREADTH);

pub fn cases(take: Taker) {
    reaches_by_size(take);
    reaches_by_stars(take);
    quantified_reaches(take);
    doubled(take);
    breadths(take);
    powers(take);
    unreached(take);
}

/// A case with this main and with one domain of `elements` elements.
fn main_case(take: Taker, name: &str, elements: u16, term: Term, expected: Expected) {
    let rules = RuleSet { domains: vec![elements], ..with_main(term) };
    take(Case::of_rules(name, &rules, expected));
}

/// The expected answer for a main of this size, reach and breadth, in a rule set without functions: the sizes
/// or a refusal.
fn sized(size: u64, reach: u64, breadth: u64) -> Expected {
    if reach > u64::from(MOST_REACH) {
        return TOO_LARGE;
    }
    if breadth > u64::from(MOST_BREADTH) {
        return TOO_BROAD;
    }
    Expected::Answer(Ok(Sizes { cells: 0, reach: reach as u32, breadth: breadth as u32, size: size as u32 }))
}

/// Terms whose reach is their size, from two words below the limit to two words above it.
fn reaches_by_size(take: Taker) {
    for words in 8190..=8194usize {
        let reach = words as u64;
        let (rest, beside) = (|head: usize| term_of(words - head - 100), || term_of(100));
        let mut case = |name, term, breadth| main_case(take, name, 1, term, sized(reach, reach, breadth));
        case("guard by its size", term_of(words), 1);
        case("sequence by its left", Term::sequence(rest(1), beside()), 1);
        case("choice by its size", Term::choice(rest(1), beside()), 2);
        case("parallel", Term::parallel(NO_LABELS, rest(5), beside()), 2);
        let processes = vec![process(&[], term_of(words)), process(&[], Term::call(0, &[]))];
        let rules = RuleSet { processes, ..with_main(Term::Internal) };
        take(Case::of_rules("call", &rules, sized(reach, reach, 1)));
    }
}

/// Stars, whose reach exceeds their size, and each clause by which a term's reach depends on its operand's.
fn reaches_by_stars(take: Taker) {
    for words in 4093..=4097usize {
        let (inner, star) = (words as u64, || Term::star(term_of(words)));
        let mut case = |name, term, more, breadth| {
            main_case(take, name, 1, term, sized(1 + inner + more, 2 + 2 * inner, breadth));
        };
        case("star", star(), 0, 2);
        case("sequence by its right", Term::sequence(Term::Internal, star()), 2, 2);
        case("choice by its right", Term::choice(Term::Internal, star()), 2, 3);
        case("choice by its left", Term::choice(star(), Term::Internal), 2, 3);
        case("guard by its inside", Term::guard(condition_of(3), star()), 4, 2);
        case("choice over one element", Term::choice_over(0, star()), 0, 2);
        case("parallel over one element", Term::parallel_over(0, NO_LABELS, star()), 0, 2);
    }
    for words in 2728..=2730usize {
        let (inner, term) = (words as u64, Term::star(Term::star(term_of(words))));
        main_case(take, "star of a star", 1, term, sized(2 + inner, 5 + 3 * inner, 3));
    }
}

fn quantified_reaches(take: Taker) {
    for rest in 62..=66usize {
        let copies = Term::choice_over(0, term_of(126));
        let whole = 64 * 126 + 63 + 1 + rest as u64;
        main_case(take, "choice over 64", 64, Term::choice(copies, term_of(rest)), sized(whole, whole, 65));
        let copies = Term::parallel_over(0, NO_LABELS, term_of(122));
        let whole = 64 * 122 + 5 * 63 + 5 + rest as u64;
        main_case(
            take,
            "parallel over 64",
            64,
            Term::parallel(NO_LABELS, copies, term_of(rest)),
            sized(whole, whole, 65),
        );
    }
}

/// `quantifiers` nested quantifiers, at most 8 in a process, each process calling the one before; main is
/// `main` of a call of the last one.
fn quantifier_chain(
    elements: u16,
    quantifiers: usize,
    bind: impl Fn(Term) -> Term,
    main: impl Fn(Term) -> Term,
) -> RuleSet {
    let mut processes = Vec::new();
    let mut left = quantifiers;
    while left > 0 {
        let here = left.min(8);
        left -= here;
        let inner =
            if processes.is_empty() { Term::Internal } else { Term::call(processes.len() as u16 - 1, &[]) };
        processes.push(process(&[], (0..here).fold(inner, |term, _| bind(term))));
    }
    let last = Term::call(processes.len() as u16 - 1, &[]);
    processes.push(process(&[], main(last)));
    RuleSet { domains: vec![elements], processes, ..with_main(Term::Internal) }
}

/// k nested choices over two elements have 2^(k + 1) - 1 words, and their star has a reach of 2^(k + 2): a
/// sum that wraps around to 0 at 16, 32 or 64 bits would let such a set pass.
fn doubled(take: Taker) {
    for k in (1..=80usize).chain([120, 200, 248]) {
        let rules = quantifier_chain(2, k, |term| Term::choice_over(0, term), Term::star);
        let expected = if k <= 11 { sized(2 << k, 4 << k, (1 << k) + 1) } else { TOO_LARGE };
        take(Case::of_rules(format!("star of {k} doublings"), &rules, expected));
        let rules = quantifier_chain(2, k, |term| Term::parallel_over(0, NO_LABELS, term), Term::star);
        let inner = 6 * (1 << k.min(10)) - 5;
        let expected = if k <= 9 { sized(inner + 1, 2 * inner + 2, (1 << k) + 1) } else { TOO_LARGE };
        take(Case::of_rules(format!("star of {k} parallel doublings"), &rules, expected));
    }
}

/// W 65,535 in few words: n copies of a choice of w actions, all synchronised, have breadth (1 + w)^n - 1.
fn breadths(take: Taker) {
    let a = || Term::action(0, &[]);
    let choice = |n: usize| (1..n).fold(a(), |rest, _| Term::choice(a(), rest));
    for (w, n) in [(1, 16u16), (3, 8), (15, 4), (255, 2)] {
        let most = || Term::parallel_over(0, mask_of(&[0]), choice(w));
        let mut case = |name: &str, term: Term, expected| {
            main_case(take, &format!("{name} of {w} by {n}"), n, term, expected)
        };
        case("whole breadth", most(), Expected::Admitted);
        case("guard of the whole breadth", Term::guard(condition_of(1), most()), Expected::Admitted);
        case("sequence of the whole breadth", Term::sequence(a(), most()), Expected::Admitted);
        case("sequence with it first", Term::sequence(most(), most()), Expected::Admitted);
        case("star of the whole breadth", Term::star(most()), TOO_BROAD);
        case("choice with the whole breadth", Term::choice(most(), a()), TOO_BROAD);
        case("choice with it second", Term::choice(a(), most()), TOO_BROAD);
        case("interleaved with the whole breadth", Term::parallel(NO_LABELS, most(), a()), TOO_BROAD);
        case("synchronised with the whole breadth", Term::parallel(mask_of(&[0]), a(), most()), TOO_BROAD);
    }
    for copies in 1..=64u16 {
        let rules = copies_of_choice(copies);
        let breadth = 3u64.saturating_pow(u32::from(copies)) - 1;
        let words = 10 * u64::from(copies) - 5;
        take(Case::of_rules(
            format!("{copies} copies of P11's choice"),
            &rules,
            sized(words, words, breadth),
        ));
    }
}

/// Breadths 2^n - 1, and with a star or an internal step 2^n, for n up to 64; nested, far more.
fn powers(take: Taker) {
    for n in 1..=64u16 {
        let most = || Term::parallel_over(0, mask_of(&[0]), Term::action(0, &[]));
        let expected = |limit| if n <= limit { Expected::Admitted } else { TOO_BROAD };
        main_case(take, &format!("2^{n} - 1"), n, most(), expected(16));
        main_case(take, &format!("2^{n} by a star"), n, Term::star(most()), expected(15));
        main_case(take, &format!("2^{n} by a choice"), n, Term::choice(most(), Term::Internal), expected(15));
        let beside = Term::parallel(NO_LABELS, most(), Term::Internal);
        main_case(take, &format!("2^{n} by an internal step beside it"), n, beside, expected(15));
    }
    let squared =
        Term::parallel_over(0, mask_of(&[0]), Term::parallel_over(0, mask_of(&[0]), Term::action(0, &[])));
    main_case(take, "too large and too broad", 64, Term::star(squared), TOO_LARGE);
}

/// A process that main does not call may be larger than any number here can express; only main's reach and
/// breadth are judged.
fn unreached(take: Taker) {
    let binds: [fn(Term) -> Term; 3] = [
        |term| Term::choice_over(0, term),
        |term| Term::parallel_over(0, NO_LABELS, term),
        |term| Term::parallel_over(0, mask_of(&[0]), term),
    ];
    for bind in binds {
        let rules = quantifier_chain(64, 248, bind, |_| Term::Internal);
        take(Case::of_rules("64^248 words unreached", &rules, sized(1, 1, 1)));
        let rules = quantifier_chain(64, 248, bind, |call| call);
        take(Case::of_rules("64^248 words reached", &rules, TOO_LARGE));
        let rules = quantifier_chain(64, 248, bind, |call| Term::sequence(Term::Internal, Term::star(call)));
        take(Case::of_rules("64^248 words reached after a step", &rules, TOO_LARGE));
    }
}
