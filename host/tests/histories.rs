//! Tests of the plain interpreter: the laws of moves on random terms, and cells against histories.
//!
//! Document 01, "No move enlarges either, and a term has at most W moves", and "Memory and the history
//! machine": what is computed over cells must be what the machine does, which keeps no cells. `ROUNDS=20`
//! generates twenty times as many random cases.

use host::generate::calls::{subjects_of_all_shapes, Subject};
use host::generate::lent::{for_run, memory, Fit};
use host::generate::random::Random;
use host::generate::readers;
use host::generate::running::{self, State};
use host::machines::outcome;
use host::plain::histories::{self, Machine};
use host::{bytes_of, examples, on_large_stack, plain, words_of, Action, Made, Tally};

fn rounds() -> usize {
    std::env::var("ROUNDS").ok().and_then(|rounds| rounds.parse().ok()).unwrap_or(1)
}

/// Asserts of a term at any memory: it has at most W moves, none of which enlarges reach or breadth; the new
/// memory of an internal move is the given one; Present makes the move with the smallest number. Returns the
/// number of moves.
fn check_laws(subject: &Subject, state: &State) -> usize {
    let Subject { file, rules, sizes, .. } = subject;
    let (size, reach, breadth) = running::measures(rules, &words_of(&state.term));
    assert_eq!(size, state.term.len() as u64 / 2);
    let listed = running::moves(rules, file, state);
    assert!(listed.len() as u64 <= breadth, "{} moves, breadth {breadth}", listed.len());
    let mut seen: Vec<Action> = Vec::new();
    for (number, (action, next)) in listed.iter().enumerate() {
        let (next_size, next_reach, next_breadth) = running::measures(rules, &words_of(&next.term));
        assert_eq!(next_size, next.term.len() as u64 / 2);
        assert!(next_reach <= reach && next_breadth <= breadth, "move {number} enlarges the term");
        if *action == Action::Internal {
            assert_eq!(state.memory, next.memory);
        }
        if seen.contains(action) {
            continue;
        }
        seen.push(*action);
        let event = bytes_of(&action.words());
        let (mut term, mut memory) = (vec![0; 2 * reach as usize], vec![0; 2 * sizes.cells as usize]);
        let made = plain::present(file, &state.term, &state.memory, &event, &mut term, &mut memory);
        term.truncate(next.term.len());
        assert_eq!(Ok(Made { size: next_size as u32, action: *action }), made);
        assert_eq!((&next.term, &next.memory), (&term, &memory), "the event of move {number}");
    }
    listed.len()
}

#[test]
fn laws_of_moves() {
    let listed = on_large_stack(|| {
        let mut random = Random::new(5);
        let subjects = subjects_of_all_shapes(&mut random, 40 * rounds());
        let mut listed = 0;
        for subject in &subjects {
            for state in running::walk(&mut random, &subject.file, subject.sizes, 12) {
                listed += if subject.sizes.breadth < 2000 { check_laws(subject, &state) } else { 0 };
            }
            for _ in 0..10 {
                let depth = random.below(7) as u32;
                let term = bytes_of(&running::arbitrary(&mut random, &subject.rules, depth));
                let memory = memory(&mut random, subject.sizes.cells as usize, Fit::Exact);
                listed += check_laws(subject, &State { term, memory });
            }
        }
        listed
    });
    assert!(listed > 10_000, "{listed} moves looked at");
}

/// Asserts that the moves at the end of a run, each with the memory after it, are the machine's.
fn check_end(subject: &Subject, machine: &mut Machine, end: &State) {
    assert_eq!(histories::spelled(&machine.term), words_of(&end.term));
    assert_eq!(machine.values(), words_of(&end.memory));
    let expected = machine.moves();
    let found = running::moves(&subject.rules, &subject.file, end);
    assert_eq!(expected.len(), found.len());
    for (step, (action, next)) in expected.into_iter().zip(found) {
        let event = match &step.event {
            None => vec![20],
            Some(event) => [21, event.label]
                .into_iter()
                .chain(event.arguments.iter().flat_map(|&value| [1, value]))
                .collect(),
        };
        assert_eq!(event, action.words());
        assert_eq!(histories::spelled(&step.successor), words_of(&next.term));
        let back = (machine.term.clone(), machine.history.len());
        machine.take(step);
        assert_eq!(machine.values(), words_of(&next.memory));
        machine.undo(back);
    }
}

/// Runs a list over cells and over the history: the answers and the bytes must be the same, and, if
/// `look_on`, the moves at the end.
fn check_run(random: &mut Random, subject: &Subject, list: &[u8], look_on: bool) -> Tally {
    let Subject { name, file, sizes, .. } = subject;
    let lent = for_run(random, *sizes, [Fit::Longer; 5]);
    let by_cells = outcome(plain::run, file, list, &lent);
    let by_history = outcome(histories::run, file, list, &lent);
    assert_eq!(by_history.reply, by_cells.reply, "{name}: histories (left) and cells (right), {list:?}");
    assert!(by_history.same(&by_cells), "{name}: buffers differ, {list:?}");
    let tally = by_cells.tally();
    assert_eq!(list.len() as u64 / 4, tally.counts().iter().sum());
    if look_on {
        let (_, rules) = histories::rule_set(file).expect("an admitted set");
        assert_eq!(subject.rules, rules);
        let mut machine = Machine::new(&rules);
        words_of(list).into_iter().step_by(2).for_each(|number| machine.feed(number));
        let term = by_cells.lent[1][..2 * tally.size as usize].to_vec();
        let memory = by_cells.lent[2][..2 * sizes.cells as usize].to_vec();
        check_end(subject, &mut machine, &State { term, memory });
    }
    tally
}

#[test]
fn cells_and_histories_agree() {
    let (lists, tally) = on_large_stack(|| {
        let mut random = Random::new(17);
        let subjects = subjects_of_all_shapes(&mut random, 60 * rounds());
        let (mut lists, mut whole) = (0, Tally::default());
        for subject in &subjects {
            for length in [0, 1, 2, 3, 5, 8, 13, 21, 34] {
                let list = readers::list(&mut random, length);
                let tally = check_run(&mut random, subject, &list, subject.sizes.breadth < 3000);
                lists += 1;
                whole.visible += tally.visible;
                whole.internal += tally.internal;
                whole.refused += tally.refused;
            }
        }
        (lists, whole)
    });
    println!("{lists} lists: {tally:?}");
    assert!(tally.visible > 1000 && tally.internal > 1000 && tally.refused > 1000, "{tally:?}");
}

/// The same for random terms, which the rule set need not reach, at values over histories that it does reach.
#[test]
fn any_terms_have_the_same_moves() {
    on_large_stack(|| {
        let mut random = Random::new(29);
        let subjects = subjects_of_all_shapes(&mut random, 40 * rounds());
        for subject in &subjects {
            let mut machine = Machine::new(&subject.rules);
            for _ in 0..12 {
                machine.feed(random.between(0, 3));
                let depth = random.below(7) as u32;
                let words = running::arbitrary(&mut random, &subject.rules, depth);
                let (before, end) = (machine.term.clone(), bytes_of(&machine.values()));
                machine.put(&words);
                check_end(subject, &mut machine, &State { term: bytes_of(&words), memory: end });
                machine.term = before;
            }
        }
    });
}

/// Some thousand events, in systems that can go on for ever. The first move would often end a star, so each
/// number is chosen among the visible moves of a walk.
#[test]
fn long_histories() {
    on_large_stack(|| {
        let subjects = [examples::key_cabinet(2), examples::key_cabinet(16), examples::library(3, 3, 2)];
        for rules in subjects {
            let subject = Subject::new("example", rules).expect("the example is admitted");
            let (mut random, mut list) = (Random::new(23), Vec::new());
            let mut state = running::start(&subject.file, subject.sizes);
            while list.len() < 3000 {
                let listed = running::moves(&subject.rules, &subject.file, &state);
                let visible: Vec<usize> =
                    (0..listed.len()).filter(|&number| listed[number].0 != Action::Internal).collect();
                let number = if visible.is_empty() { 0 } else { *random.pick(&visible) };
                list.push(number as u16);
                state = listed[number].1.clone();
            }
            let list = readers::at_any(&mut random, &list);
            let tally = check_run(&mut random, &subject, &list, true);
            assert!(tally.visible > 2000, "{tally:?}");
        }
    });
}
