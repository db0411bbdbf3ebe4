//! The history machine, which keeps the whole history and no cells. Run by it is in `running`.
//!
//! Document 01, "Memory and the history machine": "A function's value over T is its empty-trace expression if
//! T is empty, else its expression for T's last label; now reads values over T, before reads values over T
//! without its last action." and "Moves, in order", sentence by sentence, on trees. Values are computed
//! recursively over the history and cached, since without a cache a history of some thousand events would
//! take too long. Nothing here but admission is shared with the interpreter over cells.

mod running;

pub use running::run;

use std::cell::RefCell;
use std::rc::Rc;

use super::{reader, trees};
use crate::rules::{Condition, Data, Mask, RuleSet, NO_LABELS};
use crate::unfold::{self, Running};
use crate::{Sizes, Tally, MOST_REACH};

/// A visible action: a label and its arguments.
#[derive(Clone, Debug, PartialEq, Eq)]
pub struct Event {
    pub label: u16,
    pub arguments: Vec<u16>,
}

/// A running term that shares its parts with the terms it came from.
#[derive(Debug)]
pub enum Tree {
    Done,
    Internal,
    Action(Event),
    Sequence(Rc<Tree>, Rc<Tree>),
    Choice(Rc<Tree>, Rc<Tree>),
    Star(Rc<Tree>),
    Parallel(Mask, Rc<Tree>, Rc<Tree>),
    Guard(Rc<Condition>, Rc<Tree>),
}

/// A move: its action, `None` if internal, and its successor.
#[derive(Clone, Debug)]
pub struct Move {
    pub event: Option<Event>,
    pub successor: Rc<Tree>,
}

/// A value; `None` is undefined.
type Value = Option<u16>;

/// A cached value, and the cache's age when it was stored.
type Known = (u32, Value);

/// An empty cache entry: its age is below the cache's first age.
const NOT_FOUND: Known = (0, None);

/// The machine: a term, the list T and three counts, with a cache of values.
pub struct Machine<'a> {
    rules: &'a RuleSet,
    pub term: Rc<Tree>,
    pub history: Vec<Event>,
    pub tally: Tally,
    /// The cache: the values over the empty history, by function and element, then those over the first
    /// event, over the first two events, and so on.
    known: RefCell<Vec<Known>>,
    /// For each function, the offset of its first value among the values over one history; one more entry
    /// gives their number.
    places: Vec<usize>,
    /// The cache's age. Entries of another age are invalid.
    age: u32,
}

/// The rule set of an admitted file as a tree, with its sizes.
pub fn rule_set(bytes: &[u8]) -> Result<(Sizes, RuleSet), u8> {
    let sizes = reader::admit(bytes)?;
    Ok((sizes, trees::rule_set(&reader::open(bytes)?[2..])))
}

impl<'a> Machine<'a> {
    /// The machine at the start: main's unfolding, the empty list and zeros. The rule set must be an admitted
    /// one.
    pub fn new(rules: &'a RuleSet) -> Machine<'a> {
        let main = unfold::main_of(rules, MOST_REACH as usize).expect("main's size is below the reach limit");
        let mut places = vec![0];
        for function in &rules.functions {
            places.push(places[places.len() - 1] + usize::from(rules.domains[usize::from(function.domain)]));
        }
        let known = RefCell::new(vec![NOT_FOUND; places[places.len() - 1]]);
        Machine {
            rules,
            term: shared(&main),
            history: Vec::new(),
            tally: Tally::default(),
            known,
            places,
            age: 1,
        }
    }

    /// Replaces the machine's term by any running term of the rule set; T and the counts are kept.
    pub fn put(&mut self, words: &[u16]) {
        self.term = trees::running(self.rules, words);
    }

    /// Takes the move of this number if it exists, else counts the number as refused.
    pub fn feed(&mut self, number: u16) {
        match self.moves().into_iter().nth(usize::from(number)) {
            Some(step) => self.take(step),
            None => self.tally.refused += 1,
        }
    }

    /// Takes one of the machine's moves.
    pub fn take(&mut self, step: Move) {
        self.term = step.successor;
        match step.event {
            Some(event) => {
                self.history.push(event);
                self.make_room(self.history.len());
                self.tally.visible += 1;
            }
            None => self.tally.internal += 1,
        }
    }

    /// Goes back to an earlier term and to the first `events` events of T. The counts are kept.
    pub fn undo(&mut self, (term, events): (Rc<Tree>, usize)) {
        self.term = term;
        self.history.truncate(events);
        self.make_room(events);
    }

    /// Invalidates the cache, so that values are computed from T again.
    pub fn forget(&mut self) {
        self.age += 1;
    }

    /// The machine's moves: those of its term, with guards reading values over T.
    pub fn moves(&self) -> Vec<Move> {
        self.moves_of(&self.term)
    }

    /// The values of all functions over T, as the words of cells.
    pub fn values(&self) -> Vec<u16> {
        let elements = |function: u16| {
            let domain = self.rules.functions[usize::from(function)].domain;
            (0..self.rules.domains[usize::from(domain)]).map(move |element| (function, element))
        };
        let values = (0..self.rules.functions.len() as u16).flat_map(elements);
        let length = self.history.len();
        values.map(|(function, element)| self.value(length, function, element).unwrap_or(65535)).collect()
    }

    /// Resizes the cache to the values over at most `events` events.
    fn make_room(&mut self, events: usize) {
        let room = (1 + events) * self.per_history();
        self.known.borrow_mut().resize(room, NOT_FOUND);
    }

    /// The function's value over the first `length` events of T.
    fn value(&self, length: usize, function: u16, element: u16) -> Value {
        let (first, end) = (self.places[usize::from(function)], self.places[usize::from(function) + 1]);
        let place = first + usize::from(element);
        // Outside the domain the value is undefined.
        if place >= end {
            return None;
        }
        let place = length * self.per_history() + place;
        let (age, value) = self.known.borrow()[place];
        if age == self.age {
            return value;
        }
        let found = self.found(length, function, element);
        self.known.borrow_mut()[place] = (self.age, found);
        found
    }

    /// The number of values over one history.
    fn per_history(&self) -> usize {
        self.places[self.rules.functions.len()]
    }

    fn found(&self, length: usize, function: u16, element: u16) -> Value {
        let function = &self.rules.functions[usize::from(function)];
        if length == 0 {
            return self.data(&function.at_start, 0, &[element]);
        }
        let last = &self.history[length - 1];
        // A label has at most two parameters.
        let mut variables = [element, 0, 0];
        variables[1..1 + last.arguments.len()].copy_from_slice(&last.arguments);
        let variables = &variables[..1 + last.arguments.len()];
        self.data(&function.at_label[usize::from(last.label)], length, variables)
    }

    fn data(&self, data: &Data, length: usize, variables: &[u16]) -> Value {
        let inside = |data: &Data| self.data(data, length, variables);
        match data {
            Data::Undefined => None,
            Data::Constant(value) => Some(*value),
            Data::Variable(number) => Some(variables[usize::from(*number)]),
            Data::Add(left, right) => inside(left)?.checked_add(inside(right)?).filter(|&sum| sum <= 65534),
            Data::Subtract(left, right) => inside(left)?.checked_sub(inside(right)?),
            Data::If(condition, yes, no) => {
                inside(if self.holds(condition, length, variables) { yes } else { no })
            }
            Data::Now(function, argument) => self.value(length, *function, inside(argument)?),
            Data::Before(function, argument) => self.value(length - 1, *function, inside(argument)?),
        }
    }

    fn holds(&self, condition: &Condition, length: usize, variables: &[u16]) -> bool {
        let data = |data: &Data| self.data(data, length, variables);
        let inside = |condition: &Condition| self.holds(condition, length, variables);
        match condition {
            Condition::Equal(left, right) => data(left) == data(right),
            Condition::Less(left, right) => {
                matches!((data(left), data(right)), (Some(left), Some(right)) if left < right)
            }
            Condition::And(left, right) => inside(left) && inside(right),
            Condition::Or(left, right) => inside(left) || inside(right),
            Condition::Not(inner) => !inside(inner),
            Condition::True => true,
        }
    }

    fn moves_of(&self, term: &Rc<Tree>) -> Vec<Move> {
        match &**term {
            Tree::Done => Vec::new(),
            Tree::Internal => vec![to_done(None)],
            Tree::Action(event) => vec![to_done(Some(event.clone()))],
            Tree::Sequence(left, right) => match **left {
                Tree::Done => self.moves_of(right),
                _ => followed(self.moves_of(left), right),
            },
            Tree::Choice(left, right) => [self.moves_of(left), self.moves_of(right)].concat(),
            Tree::Star(inner) => {
                let mut moves = vec![to_done(None)];
                moves.extend(followed(self.moves_of(inner), term));
                moves
            }
            Tree::Parallel(mask, left, right) => self.moves_beside(mask, left, right),
            Tree::Guard(condition, inner) => {
                if self.holds(condition, self.history.len(), &[]) {
                    self.moves_of(inner)
                } else {
                    Vec::new()
                }
            }
        }
    }

    fn moves_beside(&self, mask: &Mask, left: &Rc<Tree>, right: &Rc<Tree>) -> Vec<Move> {
        if matches!((&**left, &**right), (Tree::Done, Tree::Done)) {
            return vec![to_done(None)];
        }
        let beside = |event: &Option<Event>, left: &Rc<Tree>, right: &Rc<Tree>| Move {
            event: event.clone(),
            successor: Rc::new(Tree::Parallel(*mask, left.clone(), right.clone())),
        };
        let (lefts, rights) = (self.moves_of(left), self.moves_of(right));
        let mut moves = Vec::new();
        for step in lefts.iter().filter(|step| !in_mask(step, mask)) {
            moves.push(beside(&step.event, &step.successor, right));
        }
        for step in rights.iter().filter(|step| !in_mask(step, mask)) {
            moves.push(beside(&step.event, left, &step.successor));
        }
        for first in lefts.iter().filter(|step| in_mask(step, mask)) {
            for second in rights.iter().filter(|second| second.event == first.event) {
                moves.push(beside(&first.event, &first.successor, &second.successor));
            }
        }
        moves
    }
}

fn to_done(event: Option<Event>) -> Move {
    Move { event, successor: Rc::new(Tree::Done) }
}

/// The moves, with the term in sequence after each successor.
fn followed(moves: Vec<Move>, term: &Rc<Tree>) -> Vec<Move> {
    let follow = |step: Move| Move {
        event: step.event,
        successor: Rc::new(Tree::Sequence(step.successor, term.clone())),
    };
    moves.into_iter().map(follow).collect()
}

/// An internal move counts as outside every mask.
fn in_mask(step: &Move, mask: &Mask) -> bool {
    let Some(event) = &step.event else { return false };
    *mask != NO_LABELS && mask[usize::from(event.label / 16)] >> (event.label % 16) & 1 == 1
}

fn shared(term: &Running) -> Rc<Tree> {
    Rc::new(match term {
        Running::Internal => Tree::Internal,
        Running::Action(label, values) => Tree::Action(Event { label: *label, arguments: values.clone() }),
        Running::Sequence(left, right) => Tree::Sequence(shared(left), shared(right)),
        Running::Choice(left, right) => Tree::Choice(shared(left), shared(right)),
        Running::Star(inner) => Tree::Star(shared(inner)),
        Running::Parallel(mask, left, right) => Tree::Parallel(*mask, shared(left), shared(right)),
        Running::Guard(condition, inner) => Tree::Guard(Rc::new(condition.clone()), shared(inner)),
    })
}

/// The words of a running term.
pub fn spelled(term: &Tree) -> Vec<u16> {
    let mut words = Vec::new();
    spell(term, &mut words);
    words
}

fn spell(term: &Tree, words: &mut Vec<u16>) {
    match term {
        Tree::Done => words.push(30),
        Tree::Internal => words.push(20),
        Tree::Action(event) => {
            words.extend([21, event.label]);
            event.arguments.iter().for_each(|&value| words.extend([1, value]));
        }
        Tree::Sequence(left, right) => spell_both(&[22], left, right, words),
        Tree::Choice(left, right) => spell_both(&[23], left, right, words),
        Tree::Star(inner) => {
            words.push(24);
            spell(inner, words);
        }
        Tree::Parallel([a, b, c, d], left, right) => spell_both(&[25, *a, *b, *c, *d], left, right, words),
        Tree::Guard(condition, inner) => {
            words.push(26);
            condition.spell(words);
            spell(inner, words);
        }
    }
}

fn spell_both(head: &[u16], left: &Tree, right: &Tree, words: &mut Vec<u16>) {
    words.extend_from_slice(head);
    spell(left, words);
    spell(right, words);
}
