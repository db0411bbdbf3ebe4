//! The engine's operations against the plain interpreter: every kind of call, between forbidden pages.
//!
//! Compiled only if the engine is linked (cfg `cabinet`). `ROUNDS=20` generates twenty times as many random
//! cases. An access to a forbidden page ends the process without a message: with `TRACE=1` each call is named
//! before it is made.
#![cfg(cabinet)]

use std::io::Write;

use host::calls::{Call, Operation, Operations, Outcome, Plain, EVERY_OPERATION};
use host::engine::{nothing, Cabinet};
use host::generate::calls::every_call;
use host::generate::running;
use host::guarded::{Edge, Rooms};
use host::met::Met;
use host::plain::histories;
use host::rules::RuleSet;
use host::{examples, on_large_stack, plain, words_of, Sizes};

fn rounds() -> usize {
    std::env::var("ROUNDS").ok().and_then(|rounds| rounds.parse().ok()).unwrap_or(1)
}

/// Written to the handle, not by println!, so that the test harness does not swallow it.
fn say(line: &str) {
    writeln!(std::io::stdout().lock(), "{line}").unwrap();
}

/// How many calls of the rarer kinds were made and not refused.
#[derive(Debug, Default)]
struct Kinds {
    /// The rule set of the last call, kept since many calls in a row have the same one.
    last: Option<(Vec<u8>, Sizes, RuleSet)>,
    /// Given terms whose reach is above main's.
    above_main: usize,
    /// Given terms of more than one word that contain done.
    done_within: usize,
    /// Lent buffers with a byte after their last word.
    odd: usize,
    /// Lent memories with cells after the last one that is written.
    longer: usize,
}

impl Kinds {
    fn note(&mut self, call: &Call, outcome: &Outcome) {
        if outcome.reply.refusal() != 0 {
            return;
        }
        self.odd += call.lent.iter().filter(|buffer| buffer.len() % 2 == 1).count();
        let file = &call.given[0];
        if self.last.as_ref().is_none_or(|(last, ..)| last != file) {
            let (sizes, rules) = histories::rule_set(file).expect("a call that was done");
            self.last = Some((file.clone(), sizes, rules));
        }
        let (_, sizes, rules) = self.last.as_ref().expect("noted just now");
        let first = if call.operation == Operation::Run { 2 } else { 1 };
        let memories = call.lent.iter().skip(first).step_by(2);
        self.longer += memories.filter(|buffer| buffer.len() / 2 > sizes.cells as usize).count();
        if matches!(call.operation, Operation::Count | Operation::Move(_) | Operation::Present) {
            let words = words_of(&call.given[1]);
            let (_, reach, _) = running::measures(rules, &words);
            self.above_main += usize::from(reach > u64::from(sizes.reach));
            self.done_within += usize::from(words.len() > 1 && running::dones(rules, &words) > 0);
        }
    }

    fn check(&self) {
        let Kinds { above_main, done_within, odd, longer, .. } = self;
        say(&format!(
            "of those done: {above_main} with a term above main's G, {done_within} with done inside the term; \
             {odd} lent buffers with an odd byte, {longer} memories with cells past C"
        ));
        assert!([above_main, done_within, odd, longer].iter().all(|count| **count > 100), "{self:?}");
    }
}

#[test]
fn every_call_is_answered_as_by_the_plain_interpreter() {
    let (mut met, mut kinds) = (Met::default(), Kinds::default());
    on_large_stack(|| {
        let mut rooms = Rooms::new(65536);
        let trace = std::env::var_os("TRACE").is_some();
        every_call(rounds(), &mut |call| {
            if trace {
                say(&format!("{:?}: {}", call.operation, call.name));
            }
            let expected = call.outcome(&Plain);
            for edge in [Edge::Front, Edge::Back] {
                let found = rooms.outcome(&Cabinet, &call, edge);
                assert!(expected.same(&found), "{}", difference(&call, edge, &expected, &found));
            }
            met.note(&call, &expected.reply);
            kinds.note(&call, &expected);
        });
    });
    met.say("the engine and the plain interpreter, with equal answers");
    kinds.check();
    met.require(&EVERY_OPERATION);
}

/// A description of a call whose two outcomes differ, and of the difference.
fn difference(call: &Call, edge: Edge, plain: &Outcome, engine: &Outcome) -> String {
    let Call { name, operation, given, .. } = call;
    let words: Vec<Vec<u16>> = given[1..].iter().map(|bytes| words_of(bytes)).collect();
    format!(
        "{name} ({operation:?}, {edge:?}): plain answers {:?}, the engine {:?}; buffers equal: {}; given {words:?}",
        plain.reply,
        engine.reply,
        plain.lent == engine.lent
    )
}

/// A length of 0 may come with any pointer; then the rule set is refused 1, before any other test.
#[test]
fn no_bytes_and_no_pointers() {
    assert!(nothing().iter().all(|&refusal| refusal == 1));
}

/// Document 01's key cabinet: 41 words and two cells of 0; the words up to G and the bytes after the cells
/// are kept.
#[test]
fn the_key_cabinet_starts() {
    let rules = examples::key_cabinet(2).file();
    let (mut term, mut memory) = (vec![0xA5; 2 * 77 + 1], vec![0x5A; 7]);
    assert_eq!(Ok(41), Cabinet.start(&rules, &mut term, &mut memory));
    let (mut expected_term, mut expected_memory) = (vec![0xA5; 2 * 77 + 1], vec![0x5A; 7]);
    assert_eq!(Ok(41), plain::start(&rules, &mut expected_term, &mut expected_memory));
    assert_eq!(expected_term, term);
    assert_eq!(vec![0, 0, 0, 0, 0x5A, 0x5A, 0x5A], memory);
    assert_eq!(expected_memory, memory);
}
