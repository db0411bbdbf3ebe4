//! Unfolds main and measures it by document 01's definitions: the naive second way to compute G, W and the
//! start term's size.
//!
//! "Unfolding, size and breadth": "Calls are replaced by bodies. 27 and 28 become choices or parallels of the
//! copies for element 0, 1 and so on, nested to the right; over one element, that copy alone. Each variable
//! becomes a constant." It takes a tree, not bytes, and shares no code with the plain reader; the tests
//! compare the two. Unfolding stops at a given number of words, so it works for small rule sets only.

use crate::rules::{Argument, Condition, Data, Mask, RuleSet, Term, NO_LABELS};
use crate::{refusal, Answer, Sizes, MOST_BREADTH, MOST_REACH};

/// A running term: codes 20 to 26 without variables. (30, done, occurs in no unfolding.)
#[derive(Clone, Debug, PartialEq, Eq)]
pub enum Running {
    Internal,
    Action(u16, Vec<u16>),
    Sequence(Box<Running>, Box<Running>),
    Choice(Box<Running>, Box<Running>),
    Star(Box<Running>),
    Parallel(Mask, Box<Running>, Box<Running>),
    Guard(Condition, Box<Running>),
}

/// What Admit must return for a well-formed rule set; `None` if main unfolds to more than `most_words` words.
pub fn answer(rules: &RuleSet, most_words: usize) -> Option<Answer> {
    let main = main_of(rules, most_words)?;
    let (reach, breadth) = (reach(&main), breadth(&main));
    if reach > u64::from(MOST_REACH) {
        return Some(Err(refusal::SIZE));
    }
    if breadth > u64::from(MOST_BREADTH) {
        return Some(Err(refusal::BREADTH));
    }
    let cells =
        rules.functions.iter().map(|function| u32::from(rules.domains[usize::from(function.domain)])).sum();
    Some(Ok(Sizes { cells, reach: reach as u32, breadth: breadth as u32, size: size(&main) as u32 }))
}

/// Main's unfolding; `None` if it has more than `most_words` words.
pub fn main_of(rules: &RuleSet, most_words: usize) -> Option<Running> {
    let main = rules.processes.last()?;
    Unfolding { rules, left: most_words }.term(&main.term, &[])
}

/// An unfolding in progress, with the number of words that it may still write.
struct Unfolding<'a> {
    rules: &'a RuleSet,
    left: usize,
}

impl Unfolding<'_> {
    fn spend(&mut self, words: usize) -> Option<()> {
        self.left = self.left.checked_sub(words)?;
        Some(())
    }

    /// A rule term, with the values of the variables in scope.
    fn term(&mut self, term: &Term, values: &[u16]) -> Option<Running> {
        Some(match term {
            Term::Internal => {
                self.spend(1)?;
                Running::Internal
            }
            Term::Action(label, arguments) => {
                self.spend(2 + 2 * arguments.len())?;
                Running::Action(*label, values_of(arguments, values))
            }
            Term::Sequence(left, right) => {
                let (left, right) = self.both(1, left, right, values)?;
                Running::Sequence(left, right)
            }
            Term::Choice(left, right) => {
                let (left, right) = self.both(1, left, right, values)?;
                Running::Choice(left, right)
            }
            Term::Star(inner) => {
                self.spend(1)?;
                Running::Star(Box::new(self.term(inner, values)?))
            }
            Term::Parallel(mask, left, right) => {
                let (left, right) = self.both(5, left, right, values)?;
                Running::Parallel(*mask, left, right)
            }
            Term::Guard(condition, inner) => {
                let condition = condition_with(condition, values);
                self.spend(1 + condition_size(&condition))?;
                Running::Guard(condition, Box::new(self.term(inner, values)?))
            }
            Term::ChoiceOver(domain, inner) => self.copies(*domain, None, inner, values)?,
            Term::ParallelOver(domain, mask, inner) => self.copies(*domain, Some(*mask), inner, values)?,
            Term::Call(process, arguments) => {
                let body = &self.rules.processes[usize::from(*process)].term;
                self.term(body, &values_of(arguments, values))?
            }
        })
    }

    fn both(
        &mut self,
        head: usize,
        left: &Term,
        right: &Term,
        values: &[u16],
    ) -> Option<(Box<Running>, Box<Running>)> {
        self.spend(head)?;
        Some((Box::new(self.term(left, values)?), Box::new(self.term(right, values)?)))
    }

    /// The copies for element 0, 1 and so on, nested to the right: in parallel if there is a mask, else
    /// in choice.
    fn copies(&mut self, domain: u16, mask: Option<Mask>, inner: &Term, values: &[u16]) -> Option<Running> {
        let elements = self.rules.domains[usize::from(domain)];
        let mut copies = Vec::new();
        for element in 0..elements {
            let mut inside = values.to_vec();
            inside.push(element);
            copies.push(self.term(inner, &inside)?);
        }
        let mut whole = copies.pop()?;
        while let Some(copy) = copies.pop() {
            let (left, right) = (Box::new(copy), Box::new(whole));
            whole = match mask {
                Some(mask) => {
                    self.spend(5)?;
                    Running::Parallel(mask, left, right)
                }
                None => {
                    self.spend(1)?;
                    Running::Choice(left, right)
                }
            };
        }
        Some(whole)
    }
}

fn values_of(arguments: &[Argument], values: &[u16]) -> Vec<u16> {
    let value = |argument: &Argument| match argument {
        Argument::Constant(value) => *value,
        Argument::Variable(number) => values[usize::from(*number)],
    };
    arguments.iter().map(value).collect()
}

fn data_with(data: &Data, values: &[u16]) -> Data {
    let inside = |data: &Data| data_with(data, values);
    match data {
        Data::Undefined => Data::Undefined,
        Data::Constant(value) => Data::Constant(*value),
        Data::Variable(number) => Data::Constant(values[usize::from(*number)]),
        Data::Add(left, right) => Data::plus(inside(left), inside(right)),
        Data::Subtract(left, right) => Data::minus(inside(left), inside(right)),
        Data::If(condition, yes, no) => {
            Data::choose(condition_with(condition, values), inside(yes), inside(no))
        }
        Data::Now(function, argument) => Data::now(*function, inside(argument)),
        Data::Before(function, argument) => Data::before(*function, inside(argument)),
    }
}

fn condition_with(condition: &Condition, values: &[u16]) -> Condition {
    let inside = |condition: &Condition| condition_with(condition, values);
    match condition {
        Condition::Equal(left, right) => Condition::equal(data_with(left, values), data_with(right, values)),
        Condition::Less(left, right) => Condition::less(data_with(left, values), data_with(right, values)),
        Condition::And(left, right) => Condition::and(inside(left), inside(right)),
        Condition::Or(left, right) => Condition::or(inside(left), inside(right)),
        Condition::Not(inner) => Condition::negated(inside(inner)),
        Condition::True => Condition::True,
    }
}

fn condition_size(condition: &Condition) -> usize {
    let mut words = Vec::new();
    condition.spell(&mut words);
    words.len()
}

/// Size is the word count.
pub fn size(term: &Running) -> u64 {
    match term {
        Running::Internal => 1,
        Running::Action(_, values) => 2 + 2 * values.len() as u64,
        Running::Sequence(left, right) | Running::Choice(left, right) => 1 + size(left) + size(right),
        Running::Star(inner) => 1 + size(inner),
        Running::Parallel(_, left, right) => 5 + size(left) + size(right),
        Running::Guard(condition, inner) => 1 + condition_size(condition) as u64 + size(inner),
    }
}

/// Reach G, clause by clause.
pub fn reach(term: &Running) -> u64 {
    match term {
        Running::Internal | Running::Action(..) => size(term),
        Running::Sequence(left, right) => (1 + reach(left) + size(right)).max(reach(right)),
        Running::Choice(left, right) => size(term).max(reach(left)).max(reach(right)),
        Running::Star(inner) => 2 + reach(inner) + size(inner),
        Running::Parallel(_, left, right) => 5 + reach(left) + reach(right),
        Running::Guard(_, inner) => size(term).max(reach(inner)),
    }
}

/// Breadth W, clause by clause. Unlike size and reach it can exceed 2^64 in few words, so it saturates.
pub fn breadth(term: &Running) -> u64 {
    match term {
        Running::Internal | Running::Action(..) => 1,
        Running::Sequence(left, right) => breadth(left).max(breadth(right)),
        Running::Choice(left, right) => breadth(left).saturating_add(breadth(right)),
        Running::Star(inner) => breadth(inner).saturating_add(1),
        Running::Parallel(mask, left, right) => {
            let (l, r) = (breadth(left), breadth(right));
            let pairs = if *mask == NO_LABELS { 0 } else { l.saturating_mul(r) };
            l.saturating_add(r).saturating_add(pairs).max(1)
        }
        Running::Guard(_, inner) => breadth(inner),
    }
}

/// The words of a running term.
pub fn spell(term: &Running, words: &mut Vec<u16>) {
    match term {
        Running::Internal => words.push(20),
        Running::Action(label, values) => {
            words.extend([21, *label]);
            values.iter().for_each(|value| words.extend([1, *value]));
        }
        Running::Sequence(left, right) => spell_both(&[22], left, right, words),
        Running::Choice(left, right) => spell_both(&[23], left, right, words),
        Running::Star(inner) => {
            words.push(24);
            spell(inner, words);
        }
        Running::Parallel([a, b, c, d], left, right) => spell_both(&[25, *a, *b, *c, *d], left, right, words),
        Running::Guard(condition, inner) => {
            words.push(26);
            condition.spell(words);
            spell(inner, words);
        }
    }
}

fn spell_both(head: &[u16], left: &Running, right: &Running, words: &mut Vec<u16>) {
    words.extend_from_slice(head);
    spell(left, words);
    spell(right, words);
}
