//! Tests of the printing program on bytes: document 01's session and others written out; input that is cut
//! short or arrives byte by byte; and sessions of known and random rule sets, compared with the plain
//! interpreter.
//!
//! Compiled only if the program is built (cfg `session`). `ROUNDS=20` generates twenty times as many random
//! sessions.
#![cfg(session)]

use std::fmt::Write as _;
use std::io::{BufRead, BufReader, Read, Write};
use std::process::{Child, Command, Stdio};
use std::sync::mpsc;
use std::time::Duration;

use host::blocks::{byte_of_word, repair};
use host::generate::calls::{numbers, subjects_of_all_shapes, Subject};
use host::generate::random::Random;
use host::generate::{clauses, damage, faults, full, limits, nesting, Case};
use host::rules::{Process, RuleSet, Term};
use host::{bytes_of, examples, on_large_stack, plain, words_of, Action, MOST_REACH};

const PROGRAM: &str = concat!(env!("CARGO_MANIFEST_DIR"), "/../target/bin/session");

fn rounds() -> usize {
    std::env::var("ROUNDS").ok().and_then(|rounds| rounds.parse().ok()).unwrap_or(1)
}

fn started() -> Child {
    let piped = Stdio::piped;
    Command::new(PROGRAM).stdin(piped()).stdout(piped()).spawn().expect("the program is started")
}

/// What the program prints for this input, sent in pieces of `piece` bytes.
fn printed_by_pieces(input: &[u8], piece: usize) -> String {
    let mut child = started();
    let mut into = child.stdin.take().expect("a pipe");
    let mut printed = String::new();
    std::thread::scope(|scope| {
        // If the set is refused, the program ends before it has read everything: a failed write does not
        // matter.
        scope.spawn(move || input.chunks(piece).all(|bytes| into.write_all(bytes).is_ok()));
        child.stdout.take().expect("a pipe").read_to_string(&mut printed).expect("text is printed");
    });
    assert!(child.wait().expect("the program ends").success());
    printed
}

fn printed(input: &[u8]) -> String {
    printed_by_pieces(input, 1 << 16)
}

/// A rule set's file and the numbers after it.
fn given(rules: &RuleSet, numbers: &[u16]) -> Vec<u8> {
    [rules.file(), bytes_of(numbers)].concat()
}

// The expected session, by the plain interpreter.

/// Splits the input after the number of blocks that word 1 says.
fn parted(input: &[u8]) -> (&[u8], &[u8]) {
    let said = input.get(6..8).map_or(1, |word| u16::from_le_bytes([word[0], word[1]]));
    let blocks = if (1..=64).contains(&said) { usize::from(said) } else { 1 };
    input.split_at(input.len().min(512 * blocks))
}

/// The lines of a state. The buffers are large enough for every rule set.
fn state(rules: &[u8], taken: u64, term: &[u8], memory: &[u8]) -> String {
    let count = plain::count(rules, term, memory).expect("a state of the rule set");
    let mut lines = format!("state {taken} moves {count} cells");
    for cell in words_of(memory) {
        match cell {
            65535 => lines.push_str(" -"),
            number => write!(lines, " {number}").unwrap(),
        }
    }
    lines.push('\n');
    let (mut next_term, mut next_memory) = (vec![0; 16384], vec![0; 2048]);
    for number in 0..u64::from(count) {
        let made = plain::make_move(rules, term, memory, number, &mut next_term, &mut next_memory);
        write!(lines, "{number}").unwrap();
        match made.expect("a move below the count").action {
            Action::Internal => lines.push_str(" i"),
            Action::Visible { label, count, arguments } => {
                write!(lines, " {label}").unwrap();
                arguments[..usize::from(count)]
                    .iter()
                    .for_each(|argument| write!(lines, " {argument}").unwrap());
            }
        }
        lines.push('\n');
    }
    lines
}

fn session(input: &[u8]) -> String {
    let (rules, numbers) = parted(input);
    let sizes = match plain::admit(rules) {
        Ok(sizes) => sizes,
        Err(refusal) => return format!("refused {refusal}\n"),
    };
    let (mut term, mut memory) = (vec![0; 16384], vec![0; 2 * sizes.cells as usize]);
    let size = plain::start(rules, &mut term, &mut memory).expect("there is room");
    term.truncate(2 * size as usize);
    let mut taken = 0;
    let mut lines = state(rules, taken, &term, &memory);
    for number in words_of(numbers) {
        let (mut next_term, mut next_memory) = (vec![0; 16384], memory.clone());
        let number = u64::from(number);
        match plain::make_move(rules, &term, &memory, number, &mut next_term, &mut next_memory) {
            Ok(made) => {
                next_term.truncate(2 * made.size as usize);
                (term, memory, taken) = (next_term, next_memory, taken + 1);
                writeln!(lines, "choice {number}").unwrap();
                lines.push_str(&state(rules, taken, &term, &memory));
            }
            Err(refusal) => writeln!(lines, "choice {number} refused {refusal}").unwrap(),
        }
    }
    lines
}

fn check(name: &str, input: &[u8]) -> String {
    let found = printed(input);
    assert_eq!(session(input), found, "{name}: plain (left) and the program (right)");
    found
}

// Sessions written out.

/// Document 01's session, word for word.
const KEY_CABINET: &str = "\
state 0 moves 4 cells 0 0
0 i
1 0 0
2 i
3 0 1
choice 1
state 1 moves 3 cells 1 0
0 1 0
1 i
2 0 1
choice 9 refused 12
";

#[test]
fn the_key_cabinet() {
    let input = given(&examples::key_cabinet(2), &[1, 9]);
    assert_eq!(KEY_CABINET, check("key cabinet", &input));
    assert_eq!(KEY_CABINET, printed_by_pieces(&input, 1), "byte by byte");
    assert_eq!(KEY_CABINET, printed(&[&input[..], &[1]].concat()), "an odd last byte is no number");
    let start = KEY_CABINET.split_inclusive("choice").next().unwrap().trim_end_matches("choice");
    assert_eq!(start, printed(&input[..512]), "no number");
    assert_eq!(start, printed(&input[..513]), "half a number");
}

/// The input that `rt` gives the program, and the output that it expects, are document 01's.
#[test]
fn the_stored_session() {
    let stored = |name: &str| {
        std::fs::read(format!("{}/../crates/session/{name}", env!("CARGO_MANIFEST_DIR")))
            .expect("a stored file")
    };
    assert_eq!(given(&examples::key_cabinet(2), &[1, 9]), stored("stdin"));
    assert_eq!(KEY_CABINET.as_bytes(), stored("stdout"));
}

/// Internal moves count as taken and change no cell; at the end there is no move, and every number is refused.
#[test]
fn internal_moves_to_the_end() {
    let expected = "\
state 0 moves 4 cells 0 0
0 i
1 0 0
2 i
3 0 1
choice 0
state 1 moves 2 cells 0 0
0 i
1 0 1
choice 0
state 2 moves 1 cells 0 0
0 i
choice 0
state 3 moves 0 cells 0 0
choice 0 refused 12
choice 65535 refused 12
";
    assert_eq!(expected, check("key cabinet", &given(&examples::key_cabinet(2), &[0, 0, 0, 0, 65535])));
}

#[test]
fn no_cells() {
    let expected = "state 0 moves 2 cells\n0 0\n1 0\nchoice 1\nstate 1 moves 0 cells\n";
    assert_eq!(expected, check("one choice", &given(&examples::copies_of_choice(1), &[1])));
}

/// Undefined cells, and an action with two arguments: member 0 registers and borrows book 1.
#[test]
fn undefined_cells() {
    let lines = check("library", &given(&examples::library(2, 2, 2), &[5, 7]));
    let lines: Vec<&str> = lines.lines().collect();
    let states: Vec<&str> = lines.iter().copied().filter(|line| line.starts_with("state")).collect();
    let expected =
        ["state 0 moves 8 cells - - - -", "state 1 moves 10 cells - - 0 -", "state 2 moves 9 cells - 0 1 -"];
    assert_eq!(expected, states[..]);
    assert_eq!(["5 2 0", "7 4 1 0"], [lines[6], lines[18]], "Register(0), then Lend(1, 0), in {lines:#?}");
}

/// A set without all of its bytes is refused 1, or 3 if whole blocks are missing, and no number is read.
#[test]
fn input_cut_short() {
    let cabinet = examples::key_cabinet(2).file();
    let large = full::large_cabinet().file();
    for length in [0, 1, 6, 7, 8, 511] {
        assert_eq!("refused 1\n", check("key cabinet", &cabinet[..length]), "{length} bytes");
    }
    for (length, refusal) in
        [(511, 1), (512, 3), (513, 1), (1024, 3), (large.len() - 512, 3), (large.len() - 1, 1)]
    {
        assert_eq!(format!("refused {refusal}\n"), check("large", &large[..length]), "{length} bytes");
    }
}

/// If word 1 is not 1 to 64, one block is read; else as many as it says.
#[test]
fn the_number_of_blocks() {
    let said = |blocks: u16| {
        let mut input = given(&examples::key_cabinet(2), &[1, 9]);
        input[byte_of_word(1)..][..2].copy_from_slice(&blocks.to_le_bytes());
        repair(&mut input[..512]);
        input
    };
    for blocks in [0, 65, 512, 65535] {
        assert_eq!("refused 3\n", check("one is read", &said(blocks)), "{blocks} blocks");
    }
    for blocks in [2, 64] {
        assert_eq!("refused 1\n", check("more are read", &said(blocks)), "{blocks} blocks");
    }
    assert_eq!(KEY_CABINET, check("as it was", &said(1)));
}

/// Every refusal of a set, by limits, nestings, clauses and single faults.
#[test]
fn refused_sets() {
    let mut seen = [0usize; 9];
    on_large_stack(|| {
        let mut take = |case: Case| {
            // Cases with bytes after the blocks that word 1 counts are left out: the program would admit
            // fewer bytes than the case has.
            let (rules, rest) = parted(&case.bytes);
            let Err(refusal) = plain::admit(rules) else { return };
            let times = &mut seen[usize::from(refusal)];
            if rest.is_empty() && *times < 20 * rounds() {
                *times += 1;
                let numbers = bytes_of(&[0, 1, 2]);
                check(&case.name, &[&case.bytes[..], &numbers].concat());
            }
        };
        limits::cases(&mut take);
        nesting::cases(&mut take);
        clauses::cases(&mut take);
        faults::cases(1, &mut take);
        damage::cases(1, &mut take);
    });
    assert!(seen[1..].iter().all(|&times| times > 0), "a refusal was never printed: {seen:?}");
}

/// The largest terms, memories and files, and a state of many pages.
#[test]
fn the_largest() {
    on_large_stack(|| {
        check("large cabinet", &given(&full::large_cabinet(), &[0, 1, 0]));
        check("full set", &given(&full::rules(), &[0, 1, 0]));
        check("ten copies", &given(&examples::copies_of_choice(10), &[1023, 0]));
        let mut reached = false;
        limits::cases(&mut |case| {
            if plain::admit(&case.bytes).is_ok_and(|sizes| sizes.reach == MOST_REACH && sizes.breadth < 100) {
                reached = true;
                check(&case.name, &[&case.bytes[..], &bytes_of(&[1, 0, 0])].concat());
            }
        });
        assert!(reached, "no set with the largest reach");
    });
}

/// States about as long as the program's output buffer of 4,096 bytes.
#[test]
fn a_page_filled_to_the_last_byte() {
    // 600 moves, of which the first `long` have a label of two digits: each of them makes the state a byte
    // longer.
    let rules = |long: u16| {
        let moves = (0..600).map(|number| Term::action(if number < long { 63 } else { 0 }, &[]));
        let term = moves.reduce(|others, next| Term::choice(next, others)).expect("there are moves");
        RuleSet {
            domains: vec![1],
            labels: vec![vec![]; 64],
            functions: vec![],
            processes: vec![Process { parameters: vec![], term }],
        }
    };
    on_large_stack(|| {
        for (long, length) in [(580, 4094), (581, 4095), (582, 4096), (583, 4097), (584, 4098)] {
            assert_eq!(length, check("labels of two digits", &given(&rules(long), &[])).len());
            check("and a number", &given(&rules(long), &[599]));
        }
    });
}

/// Known and random rule sets, with numbers that are moves and numbers that are not.
#[test]
fn sessions_are_those_of_the_plain_interpreter() {
    on_large_stack(|| {
        let mut random = Random::new(57);
        let subjects = subjects_of_all_shapes(&mut random, 20 * rounds());
        for Subject { name, file, sizes, .. } in &subjects {
            let length = if sizes.breadth > 500 { 3 } else { 60 };
            check(name, &[&file[..], &numbers(&mut random, length)].concat());
        }
    });
}

/// If the numbers are sent one by one, each answer is printed before the next number is sent.
#[test]
fn each_answer_is_seen_at_once() {
    let mut child = started();
    let mut into = child.stdin.take().expect("a pipe");
    let from = BufReader::new(child.stdout.take().expect("a pipe"));
    let (sender, lines) = mpsc::channel();
    std::thread::spawn(move || from.lines().map_while(Result::ok).all(|line| sender.send(line).is_ok()));
    let mut expected = KEY_CABINET.lines();
    let mut seen = |count: usize| {
        for line in expected.by_ref().take(count) {
            assert_eq!(Ok(line), lines.recv_timeout(Duration::from_secs(60)).as_deref());
        }
    };
    for (bytes, count) in [(examples::key_cabinet(2).file(), 5), (bytes_of(&[1]), 5), (bytes_of(&[9]), 1)] {
        into.write_all(&bytes).expect("the program reads");
        seen(count);
    }
    drop(into);
    assert!(child.wait().expect("the program ends").success());
}
