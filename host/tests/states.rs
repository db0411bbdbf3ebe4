//! Whole systems on the engine and on the plain interpreter: every state that they reach, every move of a
//! state that has many, and the most deeply nested states.
//!
//! Document 01, "Operations" and "Moves, in order". Compiled only if the engine is linked (cfg `cabinet`).
#![cfg(cabinet)]

use std::io::Write;

use host::calls::{Call, Operation, Plain};
use host::engine::Cabinet;
use host::explore::explore;
use host::generate::calls::Subject;
use host::generate::deep;
use host::generate::running::{self, State};
use host::guarded::{Edge, Rooms};
use host::rules::RuleSet;
use host::{bytes_of, examples, on_large_stack, Action};

fn subject(name: &str, rules: RuleSet) -> Subject {
    Subject::new(name, rules).expect("an example")
}

/// Every state of the library system of source document 002, and of key cabinets, through Start, Count and
/// Move alone.
#[test]
fn systems_have_the_same_states() {
    // A key has four states, done among them. n + 1 keys have 4 s(n) states for those of one key and of the
    // others, and one more, done, after both sides are done: s(n + 1) = 4 s(n) + 1.
    let systems = [
        ("key cabinet, 2 keys", examples::key_cabinet(2), 17),
        ("key cabinet, 5 keys", examples::key_cabinet(5), 1109),
        ("library, 1 book and 1 member", examples::library(1, 1, 1), 29),
        ("library, 2 books and 2 members", examples::library(2, 2, 2), 6291),
    ];
    on_large_stack(|| {
        for (name, rules, states) in systems {
            let Subject { file, sizes, .. } = subject(name, rules);
            let plain = explore(&Plain, &file, sizes, 60_000);
            let engine = explore(&Cabinet, &file, sizes, 60_000);
            writeln!(std::io::stdout().lock(), "{name}: {engine:?}").unwrap();
            assert_eq!(plain, engine, "{name}");
            assert!(engine.whole && engine.states == states, "{name}: {states} states expected");
        }
    });
}

/// Makes a call on the engine between forbidden pages and on the plain interpreter, and asserts that the
/// outcomes are equal.
fn check(rooms: &mut Rooms, call: &Call) {
    let expected = call.outcome(&Plain);
    for edge in [Edge::Front, Edge::Back] {
        let found = rooms.outcome(&Cabinet, call, edge);
        let (plain, engine) = (&expected.reply, &found.reply);
        assert!(expected.same(&found), "{}: plain {plain:?}, engine {engine:?}", call.name);
    }
    assert_eq!(call.expected, Some(expected.reply.refusal()), "{}", call.name);
}

/// The term of ten copies, W 59,048: each of its 1,024 moves, and the one event that all of them have.
#[test]
fn ten_copies_have_the_same_moves() {
    on_large_stack(|| {
        let Subject { file, sizes, .. } = subject("ten copies", examples::copies_of_choice(10));
        let State { term, memory } = running::start(&file, sizes);
        let given = vec![file, term, memory];
        let lent = vec![vec![0xa5; 2 * sizes.reach as usize], Vec::new()];
        let call = |operation, given: &[Vec<u8>], lent: &[Vec<u8>], expected| Call {
            name: format!("ten copies: {operation:?}"),
            operation,
            given: given.to_vec(),
            lent: lent.to_vec(),
            expected: Some(expected),
        };
        let mut rooms = Rooms::new(65536);
        check(&mut rooms, &call(Operation::Count, &given, &[], 0));
        for number in 0..=1024 {
            let expected = if number < 1024 { 0 } else { 12 };
            check(&mut rooms, &call(Operation::Move(number), &given, &lent, expected));
        }
        let visible = |label| Action::Visible { label, count: 0, arguments: [0, 0] };
        for (action, expected) in [(visible(0), 0), (visible(1), 12), (Action::Internal, 12)] {
            let given = [given.clone(), vec![bytes_of(&action.words())]].concat();
            check(&mut rooms, &call(Operation::Present, &given, &lent, expected));
        }
    });
}

/// The deepest nestings of terms, guards and expressions.
#[test]
fn deep_states_have_the_same_moves() {
    on_large_stack(|| {
        let mut rooms = Rooms::new(65536);
        let calls = deep::worst().into_iter().flat_map(|deep| deep.calls());
        calls.for_each(|call| check(&mut rooms, &call));
    });
}
