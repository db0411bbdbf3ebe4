//! The rule sets of document 01's examples and the library of source document 002 (figure 3), with the names
//! that their listings use; and two variants of the key cabinet for measurements.

use crate::listing::Names;
use crate::rules::{mask_of, Argument, Condition, Data, Function, Process, RuleSet, Term, NO_LABELS};

use Argument::Variable;

/// A process with these parameter domains.
fn process(parameters: &[u16], term: Term) -> Process {
    Process { parameters: parameters.to_vec(), term }
}

/// `before` of the function itself at its parameter: its value before the last event.
fn kept(function: u16) -> Data {
    Data::before(function, Data::Variable(0))
}

/// `value` if the function's parameter equals the given variable of the label, else the function's value
/// before the last event.
fn where_same(variable: u16, value: Data, function: u16) -> Data {
    Data::choose(Condition::equal(Data::Variable(0), Data::Variable(variable)), value, kept(function))
}

/// Document 01's key cabinet with n keys: labels Take and Bring, and the function out.
pub fn key_cabinet(keys: u16) -> RuleSet {
    let out = Function {
        domain: 0,
        at_start: Data::Constant(0),
        at_label: vec![where_same(1, Data::Constant(1), 0), where_same(1, Data::Constant(0), 0)],
    };
    RuleSet {
        domains: vec![keys],
        labels: vec![vec![0], vec![0]],
        functions: vec![out],
        processes: vec![process(&[], each_key(inside()))],
    }
}

/// The key cabinet with a second function, uses, which counts how often the key has been taken. Its value
/// depends on the whole history, where out depends on the key's last event only. The guard of Take also asks
/// that uses is not below 0: this reads the count and always holds, also when the count is undefined because
/// it has passed 65,534. So a list of events may be of any length.
pub fn counting_cabinet(keys: u16) -> RuleSet {
    let uses = Function {
        domain: 0,
        at_start: Data::Constant(0),
        at_label: vec![where_same(1, Data::plus(kept(1), Data::Constant(1)), 1), kept(1)],
    };
    let below_zero = Condition::less(Data::now(1, Data::Variable(0)), Data::Constant(0));
    let mut rules = key_cabinet(keys);
    rules.functions.push(uses);
    rules.processes = vec![process(&[], each_key(Condition::and(inside(), Condition::negated(below_zero))))];
    rules
}

/// The key cabinet with an attendant, who takes part in every Take and every Bring: a parallel whose mask has
/// both labels.
pub fn attended_cabinet(keys: u16) -> RuleSet {
    let of_any_key = |label| Term::choice_over(0, Term::action(label, &[Variable(0)]));
    let attendant = Term::star(Term::choice(of_any_key(0), of_any_key(1)));
    let main = Term::parallel(mask_of(&[0, 1]), each_key(inside()), attendant);
    RuleSet { processes: vec![process(&[], main)], ..key_cabinet(keys) }
}

/// The key that is variable 0 is in the cabinet.
fn inside() -> Condition {
    Condition::equal(Data::now(0, Data::Variable(0)), Data::Constant(0))
}

/// For each key, independently of the others: the key is taken if the condition holds and then brought back,
/// again and again.
fn each_key(may_be_taken: Condition) -> Term {
    let taken = Term::guard(may_be_taken, Term::action(0, &[Variable(0)]));
    let one_key = Term::star(Term::sequence(taken, Term::action(1, &[Variable(0)])));
    Term::parallel_over(0, NO_LABELS, one_key)
}

/// Document 01's copies of P11's choice, in parallel with mask a: ten have W 59,048, eleven are refused 8.
pub fn copies_of_choice(copies: u16) -> RuleSet {
    let a = || Term::action(0, &[]);
    RuleSet {
        domains: vec![copies],
        labels: vec![vec![], vec![]],
        functions: vec![],
        processes: vec![process(&[], Term::parallel_over(0, mask_of(&[0]), Term::choice(a(), a())))],
    }
}

const BOOKS: u16 = 0;
const MEMBERS: u16 = 1;

const ACQUIRE: u16 = 0;
const DISCARD: u16 = 1;
const REGISTER: u16 = 2;
const UNREGISTER: u16 = 3;
const LEND: u16 = 4;
const RETURN: u16 = 5;

const BORROWER: u16 = 0;
const NB_LOANS: u16 = 1;

const BOOK: u16 = 0;
const LOAN: u16 = 1;
const MEMBER: u16 = 2;

/// The library of source document 002, figure 3, with the given numbers of books and members and of loans
/// that a member may have at a time. What differs from the figure is listed in `library_names`.
pub fn library(books: u16, members: u16, most_loans: u16) -> RuleSet {
    let each_book = |term| Term::parallel_over(BOOKS, NO_LABELS, term);
    let each_member = |term| Term::parallel_over(MEMBERS, NO_LABELS, term);
    RuleSet {
        domains: vec![books, members],
        labels: vec![
            vec![BOOKS],
            vec![BOOKS],
            vec![MEMBERS],
            vec![MEMBERS],
            vec![BOOKS, MEMBERS],
            vec![BOOKS],
        ],
        functions: vec![borrower(), nb_loans()],
        processes: vec![
            process(&[BOOKS], book()),
            process(&[MEMBERS, BOOKS], loan(most_loans)),
            process(&[MEMBERS], member()),
            process(
                &[],
                Term::parallel(
                    NO_LABELS,
                    each_book(Term::star(Term::call(BOOK, &[Variable(0)]))),
                    each_member(Term::star(Term::call(MEMBER, &[Variable(0)]))),
                ),
            ),
        ],
    }
}

/// The member that has the book, or undefined.
fn borrower() -> Function {
    let mut at_label = vec![kept(BORROWER); 6];
    at_label[usize::from(LEND)] = where_same(1, Data::Variable(2), BORROWER);
    at_label[usize::from(RETURN)] = where_same(1, Data::Undefined, BORROWER);
    Function { domain: BOOKS, at_start: Data::Undefined, at_label }
}

/// How many books the member has, or undefined if the member is not registered.
fn nb_loans() -> Function {
    let one = || Data::Constant(1);
    let returned_by = Condition::equal(Data::Variable(0), Data::before(BORROWER, Data::Variable(1)));
    let mut at_label = vec![kept(NB_LOANS); 6];
    at_label[usize::from(REGISTER)] = where_same(1, Data::Constant(0), NB_LOANS);
    at_label[usize::from(UNREGISTER)] = where_same(1, Data::Undefined, NB_LOANS);
    at_label[usize::from(LEND)] = where_same(2, Data::plus(kept(NB_LOANS), one()), NB_LOANS);
    at_label[usize::from(RETURN)] =
        Data::choose(returned_by, Data::minus(kept(NB_LOANS), one()), kept(NB_LOANS));
    Function { domain: MEMBERS, at_start: Data::Undefined, at_label }
}

/// No member has the book that is this variable.
fn not_lent(book: u16) -> Condition {
    Condition::equal(Data::now(BORROWER, Data::Variable(book)), Data::Undefined)
}

fn book() -> Term {
    let discarded = Term::guard(not_lent(0), Term::action(DISCARD, &[Variable(0)]));
    Term::sequence(Term::action(ACQUIRE, &[Variable(0)]), discarded)
}

/// Variable 0 is the member, variable 1 the book, as in the figure.
fn loan(most_loans: u16) -> Term {
    let may_borrow = Condition::less(Data::now(NB_LOANS, Data::Variable(0)), Data::Constant(most_loans));
    let lent = Term::action(LEND, &[Variable(1), Variable(0)]);
    let returned = Term::action(RETURN, &[Variable(1)]);
    Term::guard(Condition::and(not_lent(1), may_borrow), Term::sequence(lent, returned))
}

fn member() -> Term {
    let loans =
        Term::parallel_over(BOOKS, NO_LABELS, Term::star(Term::call(LOAN, &[Variable(0), Variable(1)])));
    let action = |label| Term::action(label, &[Variable(0)]);
    Term::sequence(action(REGISTER), Term::sequence(loans, action(UNREGISTER)))
}

fn strings(names: &[&str]) -> Vec<String> {
    names.iter().map(|name| name.to_string()).collect()
}

pub fn key_cabinet_names() -> Names {
    Names {
        title: "Key cabinet (key-cabinet.eb3)".to_string(),
        notes: strings(&[
            "Document 01's example, word for word. A key can be taken when it is in the cabinet, and \
                is then brought back; the keys do not wait for each other. Function out is 1 for a key \
                that is taken.",
        ]),
        domains: strings(&["Key"]),
        labels: strings(&["Take", "Bring"]),
        functions: strings(&["out"]),
        processes: strings(&["main"]),
    }
}

pub fn library_names() -> Names {
    Names {
        title: "Library (library.eb3)".to_string(),
        notes: strings(&[
            "The library management system of source document 002, figure 3. What was changed, and why:",
            "1. Books and members are numbers from 0, for edition 1 has no other values: b1, b2 are 0, \
                1 of BID, and m1, m2 are 0, 1 of MID. As in the paper's walk through the figure, there \
                are two of each, and NbLoans is 2.",
            "2. A pattern such as \"Lend (bId, mId): mId\" of borrower (T, bId) applies to the book asked \
                about only. Edition 1 has one expression per label and no patterns: the comparison of \
                the function's parameter with the label's is spelled out as an if, and the figure's \
                last line, \"_\", as before of the function itself, once for every label not named.",
            "3. For Return (bId) the figure has nbLoans ask \"if mId = borrower (T, bId)\". Over a history \
                that ends with that Return the book's borrower is undefined, so nbLoans would never \
                fall, and a member could borrow at most NbLoans books in one membership. What is meant, \
                and what source document 001's LNT code for it does, is the borrower before the return: \
                before borrower(x1). As printed it would be now borrower(x1): one word is different.",
            "4. A sequence has two sides, so \"Register . loans . Unregister\" is nested to the right; \
                the guard of loan stands over \"Lend . Return\" as a whole. Neither changes a move.",
            "5. borrower is function 0 and nbLoans function 1, the order of the paper's memory cells. \
                The trace T is no parameter: now and before say which history is meant. (The figure's \
                Lend takes book, then member; so here.)",
            "Renewals and reservations belong to the extended system of source document 001, which \
                needs lists of values and is left out of edition 1.",
        ]),
        domains: strings(&["BID", "MID"]),
        labels: strings(&["Acquire", "Discard", "Register", "Unregister", "Lend", "Return"]),
        functions: strings(&["borrower", "nbLoans"]),
        processes: strings(&["book", "loan", "member", "main"]),
    }
}
