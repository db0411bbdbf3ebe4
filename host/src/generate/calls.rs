//! Calls of Start, Count, Move, Present and Run: on right and wrong rule sets, terms, events, memories,
//! numbers and buffers, with one fault or several at once, to test the order of the refusals.
//!
//! Document 01, "Operations" and the table: 1 to 8, 10, 11, 9, 12; document 02, K1: in Run 13 after 9.

use super::lent::{for_run, memory, noise, roomy, Fit, FITS};
use super::random::Random;
use super::running::{self, State};
use super::well_formed::{rule_set, Shape, SHAPES};
use super::{clauses, events, every_case, readers, wrong_terms};
use crate::calls::{Call, Operation};
use crate::refusal::{NOT_OFFERED, READER, SPACE, STRANGER, TERM};
use crate::rules::RuleSet;
use crate::{bytes_of, examples, plain, Sizes, TABLE_BYTES};

/// Receives the calls, one by one.
pub type Taker<'a> = &'a mut dyn FnMut(Call);

/// An admitted rule set.
#[derive(Clone, Debug)]
pub struct Subject {
    pub name: String,
    pub rules: RuleSet,
    pub file: Vec<u8>,
    pub sizes: Sizes,
}

impl Subject {
    /// `None` if the rule set is refused.
    pub fn new(name: impl Into<String>, rules: RuleSet) -> Option<Subject> {
        let file = rules.file();
        let sizes = plain::admit(&file).ok()?;
        Some(Subject { name: name.into(), rules, file, sizes })
    }

    fn cells(&self) -> usize {
        self.sizes.cells as usize
    }

    fn reach(&self) -> usize {
        self.sizes.reach as usize
    }
}

/// The rule sets of the examples, and the one with every clause.
pub fn known_subjects() -> Vec<Subject> {
    let named = [
        ("key cabinet", examples::key_cabinet(2)),
        ("library", examples::library(2, 2, 2)),
        ("attended cabinet", examples::attended_cabinet(3)),
        ("four copies", examples::copies_of_choice(4)),
        ("every clause", clauses::base()),
    ];
    named.into_iter().filter_map(|(name, rules)| Subject::new(name, rules)).collect()
}

/// `count` random rule sets of the shape that are admitted; fewer if 20 times as many tries do not give that
/// many.
pub fn random_subjects(random: &mut Random, shape: Shape, count: usize) -> Vec<Subject> {
    let mut subjects = Vec::new();
    for number in 0..20 * count {
        let name = format!("{} set {number}", shape.name);
        subjects.extend(Subject::new(name, rule_set(random, shape)));
        if subjects.len() == count {
            break;
        }
    }
    subjects
}

/// The known subjects, and `count` random ones of every shape.
pub fn subjects_of_all_shapes(random: &mut Random, count: usize) -> Vec<Subject> {
    let mut subjects = known_subjects();
    for shape in SHAPES {
        subjects.extend(random_subjects(random, shape, count));
    }
    subjects
}

/// Every kind of call. `rounds` multiplies the number of random ones; tests use 1.
pub fn every_call(rounds: usize, take: Taker) {
    let mut random = Random::new(91);
    let random = &mut random;
    for subject in known_subjects() {
        every_call_of(random, &subject, 12, take);
    }
    for shape in SHAPES {
        for subject in random_subjects(random, shape, 12 * rounds) {
            every_call_of(random, &subject, 3, take);
        }
    }
    for subject in &known_subjects()[..2] {
        at_the_limits(random, subject, take);
    }
    refused_rules(random, take);
}

/// Calls of every operation on one rule set, at `states` reached states and as many arbitrary ones.
fn every_call_of(random: &mut Random, subject: &Subject, states: usize, take: Taker) {
    starts(random, subject, take);
    runs(random, subject, states, take);
    let reached = running::walk(random, &subject.file, subject.sizes, 4 * states);
    for _ in 0..states {
        let state = random.pick(&reached).clone();
        calls_at(random, subject, &state, take);
        let depth = random.below(8) as u32;
        let term = bytes_of(&running::arbitrary(random, &subject.rules, depth));
        let memory = memory(random, subject.cells(), Fit::Exact);
        calls_at(random, subject, &State { term, memory }, take);
    }
    strangers(random, subject, &reached[0], 12 * states, take);
    for _ in 0..states.min(4) {
        wrong(random, subject, 12 * states, take);
    }
}

/// Start with each of its two buffers in every fit.
fn starts(random: &mut Random, subject: &Subject, take: Taker) {
    for (term, memory) in FITS.iter().flat_map(|&term| FITS.map(|memory| (term, memory))) {
        let room = term.suffices(subject.reach()) && memory.suffices(subject.cells());
        take(Call {
            name: format!("{}: start, term {term:?}, memory {memory:?}", subject.name),
            operation: Operation::Start,
            given: vec![subject.file.clone()],
            lent: vec![term.buffer(random, subject.reach()), memory.buffer(random, subject.cells())],
            expected: Some(if room { 0 } else { SPACE }),
        });
    }
}

/// Run with lists of numbers, most of them moves; with each of the five buffers in every fit; and with lists
/// that have a wrong reader, in buffers with room and in buffers of any length.
fn runs(random: &mut Random, subject: &Subject, rounds: usize, take: Taker) {
    let all_roomy = |random: &mut Random| [(); 5].map(|()| roomy(random));
    for length in (0..2 * rounds).chain([40, 100]) {
        let (list, fits) = (readers::list(random, length), all_roomy(random));
        take(run(random, subject, &format!("{length} numbers"), (list, true), fits));
    }
    for (buffer, fit) in (0..5).flat_map(|buffer| FITS.map(|fit| (buffer, fit))) {
        let (list, mut fits) = (readers::list(random, 3), all_roomy(random));
        fits[buffer] = fit;
        take(run(random, subject, "3 numbers", (list, true), fits));
    }
    let wrong = readers::wrong(random, 5);
    for (name, list) in sample(random, wrong, 3 * rounds) {
        let fits = [all_roomy(random), [(); 5].map(|()| *random.pick(&FITS))];
        for fits in fits {
            take(run(random, subject, &name, (list.clone(), false), fits));
        }
    }
}

/// A call of Run in buffers of these fits, with a list whose readers are right or not. 9 is expected before
/// 13.
fn run(
    random: &mut Random,
    subject: &Subject,
    name: &str,
    (list, right): (Vec<u8>, bool),
    fits: [Fit; 5],
) -> Call {
    let words = [subject.reach(), subject.cells(), subject.reach(), subject.cells()];
    let room = fits[1..].iter().zip(words).all(|(fit, words)| fit.suffices(words));
    let expected = if !room {
        SPACE
    } else if !right || !fits[0].suffices(TABLE_BYTES / 2) {
        READER
    } else {
        0
    };
    Call {
        name: format!("{}: run, {name}, {fits:?}", subject.name),
        operation: Operation::Run,
        given: vec![subject.file.clone(), list],
        lent: for_run(random, subject.sizes, fits).to_vec(),
        expected: Some(expected),
    }
}

/// `count` move numbers, some of them rarely a move, and sometimes half a number after them.
pub fn numbers(random: &mut Random, count: usize) -> Vec<u8> {
    let number = |random: &mut Random| match random.below(16) {
        0 => random.between(0, 65535),
        1 => 65535,
        2..=5 => random.between(0, 12),
        _ => random.between(0, 3),
    };
    let mut bytes = bytes_of(&(0..count).map(|_| number(random)).collect::<Vec<u16>>());
    if random.chance(30) {
        bytes.push(1);
    }
    bytes
}

/// Makes the calls at one state, for the operations that take a term.
struct Asking<'a> {
    subject: &'a Subject,
    state: &'a State,
    /// How many words the buffer for the next term needs.
    reach: usize,
}

impl Asking<'_> {
    fn call(&self, random: &mut Random, name: &str, operation: Operation, event: Option<&[u8]>) -> Call {
        let mut given = vec![self.subject.file.clone(), self.state.term.clone(), self.state.memory.clone()];
        // Bytes after the cells have no meaning.
        let extra = [0, 0, 1, 2, 7][random.below(5)];
        given[2].extend(noise(random, extra));
        given.extend(event.map(<[u8]>::to_vec));
        let mut lent = Vec::new();
        if operation != Operation::Count {
            lent.push(roomy(random).buffer(random, self.reach));
            lent.push(roomy(random).buffer(random, self.subject.cells()));
        }
        Call { name: format!("{}: {name}", self.subject.name), operation, given, lent, expected: Some(0) }
    }

    /// The action of move `number`, which exists, as an event.
    fn event(&self, number: u64) -> Vec<u8> {
        let State { term, memory } = self.state;
        let (mut next_term, mut next_memory) = (vec![0; 2 * self.reach], vec![0; 2 * self.subject.cells()]);
        let made =
            plain::make_move(&self.subject.file, term, memory, number, &mut next_term, &mut next_memory);
        bytes_of(&made.expect("a number below the count").action.words())
    }
}

/// Count, Move and Present at a state, in buffers with room and in short ones.
fn calls_at(random: &mut Random, subject: &Subject, state: &State, take: Taker) {
    let (_, reach, _) = running::measures(&subject.rules, &crate::words_of(&state.term));
    let asking = Asking { subject, state, reach: reach as usize };
    let count = plain::count(&subject.file, &state.term, &state.memory).expect("a right term");
    take(asking.call(random, "count", Operation::Count, None));
    let count = u64::from(count);
    let mut below: Vec<u64> = (0..count.min(6)).chain([count.saturating_sub(1)]).collect();
    below.extend((0..2).map(|_| random.number() % count.max(1)));
    for number in below.iter().copied().chain([count, count + 1, 65535, 65536, 1 << 32, u64::MAX]) {
        let mut call = asking.call(random, &format!("move {number}"), Operation::Move(number), None);
        call.expected = Some(if number < count { 0 } else { NOT_OFFERED });
        take(call);
    }
    // Events that are offered, namely the actions of some of the moves above, and random ones that may be.
    let offered = below.into_iter().filter(|&number| number < count).step_by(2);
    let mut events: Vec<(Vec<u8>, Option<u8>)> =
        offered.map(|number| (asking.event(number), Some(0))).collect();
    events.extend((0..4).map(|_| (events::right(random, &subject.rules), None)));
    events.push((bytes_of(&[20]), None));
    for (event, expected) in events {
        let call = asking.call(random, &format!("event {event:?}"), Operation::Present, Some(&event));
        take(Call { expected, ..call });
    }
    // 9 before 12, and each buffer too short alone.
    let event = events::right(random, &subject.rules);
    for (operation, event) in
        [(Operation::Count, None), (Operation::Move(count), None), (Operation::Present, Some(&event[..]))]
    {
        let call = asking.call(random, "short of space", operation, event);
        short(random, call, &asking, take);
    }
}

/// The call with each of its buffers, and the given memory, too short in turn.
fn short(random: &mut Random, call: Call, asking: &Asking, take: Taker) {
    let cells = asking.subject.cells();
    for fit in [Fit::Empty, Fit::WordShort, Fit::ByteShort] {
        if cells > 0 {
            let mut call = Call { expected: Some(SPACE), ..call.clone() };
            call.given[2] = memory(random, cells, fit);
            take(call);
        }
        for (buffer, words) in [asking.reach, cells].into_iter().enumerate() {
            if buffer < call.lent.len() && words > 0 {
                let mut call = Call { expected: Some(SPACE), ..call.clone() };
                call.lent[buffer] = fit.buffer(random, words);
                take(call);
            }
        }
    }
}

/// Calls that are refused for the term or the event, in buffers of any length.
fn unfit(
    random: &mut Random,
    subject: &Subject,
    name: &str,
    term: &[u8],
    event: &[u8],
    expected: u8,
    take: Taker,
) {
    let operations = [Operation::Count, Operation::Move(random.number()), Operation::Present];
    for operation in
        operations.into_iter().filter(|operation| expected == TERM || *operation == Operation::Present)
    {
        let fit = |random: &mut Random| *random.pick(&FITS);
        let memory_fit = fit(random);
        let mut given =
            vec![subject.file.clone(), term.to_vec(), memory(random, subject.cells(), memory_fit)];
        let mut lent = Vec::new();
        if operation == Operation::Present {
            given.push(event.to_vec());
        }
        if operation != Operation::Count {
            lent = [subject.reach(), subject.cells()].map(|words| fit(random).buffer(random, words)).to_vec();
        }
        let name = format!("{}: {name}", subject.name);
        take(Call { name, operation, given, lent, expected: Some(expected) });
    }
}

/// 11 before 9, at a right term: at most `most` wrong events.
fn strangers(random: &mut Random, subject: &Subject, state: &State, most: usize, take: Taker) {
    let events = events::wrong(random, &subject.rules);
    for (name, event) in sample(random, events, most) {
        unfit(random, subject, &format!("{name}: {event:?}"), &state.term, &event, STRANGER, take);
    }
}

/// 10 before 11 and 9: at most `most` wrong terms.
fn wrong(random: &mut Random, subject: &Subject, most: usize, take: Taker) {
    let depth = 1 + random.below(4) as u32;
    let right = running::arbitrary(random, &subject.rules, depth);
    let mut terms = sample(random, wrong_terms::one_word(&subject.rules, &right), most);
    terms.extend(wrong_terms::ends(random, &right));
    for (name, term) in terms {
        let event = if random.chance(50) { events::right(random, &subject.rules) } else { vec![1, 2, 3] };
        unfit(random, subject, &name, &term, &event, TERM, take);
    }
}

/// A random selection of at most `most` entries.
fn sample<T>(random: &mut Random, mut entries: Vec<T>, most: usize) -> Vec<T> {
    while entries.len() > most {
        let place = random.below(entries.len());
        entries.swap_remove(place);
    }
    entries
}

/// Terms at the limits 7 and 8 and above them.
fn at_the_limits(random: &mut Random, subject: &Subject, take: Taker) {
    for (name, passes, words) in wrong_terms::limits(&subject.rules) {
        let state = State { term: bytes_of(&words), memory: memory(random, subject.cells(), Fit::Exact) };
        if passes {
            calls_at(random, subject, &state, take);
        } else {
            unfit(random, subject, name, &state.term, &[20, 0], TERM, take);
        }
    }
}

/// Rule sets that are refused, from every kind of case for Admit, with random bytes for everything else: 1 to
/// 8 come first.
fn refused_rules(random: &mut Random, take: Taker) {
    let mut number = 0;
    every_case(1, &mut |case| {
        number += 1;
        let refusal = plain::admit(&case.bytes).err();
        let (Some(refusal), true) = (refusal, number % 61 == 0) else { return };
        let operations = [
            (Operation::Start, 1, 2),
            (Operation::Count, 3, 0),
            (Operation::Move(0), 3, 2),
            (Operation::Present, 4, 2),
            (Operation::Run, 2, 5),
        ];
        for (operation, given, lent) in operations {
            let mut slices = |count| (0..count).map(|_| random.below(40)).collect::<Vec<usize>>();
            let (given, lent) = (slices(given - 1), slices(lent));
            let mut noises = |lengths: Vec<usize>| {
                lengths.into_iter().map(|length| noise(random, length)).collect::<Vec<_>>()
            };
            let given = [vec![case.bytes.clone()], noises(given)].concat();
            let lent = noises(lent);
            take(Call { name: case.name.clone(), operation, given, lent, expected: Some(refusal) });
        }
    });
}
