//! Tests of Admit: document 01's examples on the plain reader, the plain reader against unfolding, and, if
//! the engine is linked (cfg `cabinet`), the engine against the plain reader on every kind of bytes.
//!
//! `ROUNDS=20` generates twenty times as many random cases.

use std::io::Write;

use host::generate::random::Random;
use host::generate::well_formed::{rule_set, SHAPES};
use host::generate::{clauses, ends, every_case, full, nesting, roles, Case, Expected};
use host::rules::RuleSet;
use host::{blocks, examples, listing, on_large_stack, plain, unfold, Answer, Sizes};

fn sizes(cells: u32, reach: u32, breadth: u32, size: u32) -> Answer {
    Ok(Sizes { cells, reach, breadth, size })
}

/// The plain reader's answer; asserts that the engine's is the same.
fn admit(bytes: &[u8]) -> Answer {
    let answer = plain::admit(bytes);
    #[cfg(cabinet)]
    assert_eq!(answer, host::engine::admit(bytes), "plain (left) and engine (right) differ");
    answer
}

fn admit_rules(rules: &RuleSet) -> Answer {
    admit(&rules.file())
}

#[test]
fn key_cabinet_is_spelled_as_document_01_has_it() {
    let parts = [
        "1 1",
        "1 2",
        "2 1 0 1 0",
        "1 0 1 0 5 8 2 0 2 1 1 1 7 0 2 0 5 8 2 0 2 1 1 0 7 0 2 0",
        "1 0 28 0 0 0 0 0 24 22 26 8 6 0 2 0 1 0 21 0 2 0 21 1 2 0",
    ];
    let words: Vec<u16> =
        parts.iter().flat_map(|part| part.split(' ')).map(|word| word.parse().unwrap()).collect();
    assert_eq!(words, examples::key_cabinet(2).stream());
    let file = examples::key_cabinet(2).file();
    assert_eq!(512, file.len());
    // The block number, the sums and the edition, as the specification computes them (crates/eb3,
    // Executed.antt).
    assert_eq!([0, 0, 233, 33, 1, 0], file[..6]);
}

#[test]
fn key_cabinet_has_its_sizes() {
    assert_eq!(sizes(2, 77, 4, 41), admit_rules(&examples::key_cabinet(2)));
}

#[test]
fn ten_copies_pass_and_eleven_are_too_broad() {
    assert_eq!(sizes(0, 95, 59048, 95), admit_rules(&examples::copies_of_choice(10)));
    assert_eq!(Err(8), admit_rules(&examples::copies_of_choice(11)));
    let eleven = unfold::main_of(&examples::copies_of_choice(11), 1000).unwrap();
    assert_eq!(177_146, unfold::breadth(&eleven));
}

#[test]
fn domain_size_64_passes_0_and_65_do_not() {
    assert_eq!(Err(4), admit_rules(&examples::key_cabinet(0)));
    assert_eq!(sizes(64, 2619, 128, 1467), admit_rules(&examples::key_cabinet(64)));
    assert_eq!(Err(4), admit_rules(&examples::key_cabinet(65)));
}

#[test]
fn libraries_are_admitted() {
    for (books, members) in [(1, 1), (2, 2), (3, 2), (4, 4), (8, 8)] {
        let rules = examples::library(books, members, 2);
        let answer = admit_rules(&rules);
        assert!(answer.is_ok(), "{books} books and {members} members");
        assert_eq!(unfold::answer(&rules, 10_000), Some(answer));
    }
    assert_eq!(Err(7), admit_rules(&examples::library(16, 16, 2)));
}

#[test]
fn unfolding_is_what_document_01_says() {
    let main = unfold::main_of(&examples::key_cabinet(2), 1000).unwrap();
    let mut words = Vec::new();
    unfold::spell(&main, &mut words);
    let key = |k: u16| vec![24, 22, 26, 8, 6, 0, 1, k, 1, 0, 21, 0, 1, k, 21, 1, 1, k];
    assert_eq!([vec![25, 0, 0, 0, 0], key(0), key(1)].concat(), words);
    assert_eq!((41, 77, 4), (unfold::size(&main), unfold::reach(&main), unfold::breadth(&main)));
    // Three copies are nested to the right; one copy is not put into a parallel.
    let copies = |elements| unfold::main_of(&examples::copies_of_choice(elements), 1000).unwrap();
    assert!(matches!(copies(1), unfold::Running::Choice(..)));
    match copies(3) {
        unfold::Running::Parallel(_, left, right) => {
            assert!(matches!(*left, unfold::Running::Choice(..)));
            assert!(matches!(*right, unfold::Running::Parallel(..)));
        }
        other => panic!("three copies unfold to {other:?}"),
    }
}

/// Random sets of every shape, main unfolded and measured by the definitions.
#[test]
fn plain_agrees_with_unfolding() {
    let (unfolded, too_long) = on_large_stack(|| {
        let (mut unfolded, mut too_long) = (0, 0);
        for shape in SHAPES {
            let mut random = Random::new(2024);
            for _ in 0..400 {
                let rules = rule_set(&mut random, shape);
                let Some(main) = unfold::main_of(&rules, 30_000) else {
                    too_long += 1;
                    continue;
                };
                unfolded += 1;
                let mut words = Vec::new();
                unfold::spell(&main, &mut words);
                assert_eq!(words.len() as u64, unfold::size(&main), "size is the word count");
                let answer = unfold::answer(&rules, 30_000).unwrap();
                if rules.file().len() <= 64 * 512 {
                    assert_eq!(answer, admit_rules(&rules), "a {} set", shape.name);
                }
            }
        }
        (unfolded, too_long)
    });
    assert!(unfolded > 1500, "{unfolded} sets unfolded, {too_long} too long");
}

/// The two spellings of a stream, `rules` and `roles`, give the same words.
#[test]
fn marked_words_are_the_stream() {
    on_large_stack(|| {
        let mut random = Random::new(8);
        let random_sets =
            SHAPES.into_iter().flat_map(|shape| vec![shape; 20]).map(|shape| rule_set(&mut random, shape));
        for rules in
            random_sets.chain([clauses::base(), ends::smallest(), full::rules(), examples::library(2, 2, 2)])
        {
            let words: Vec<u16> = roles::marked(&rules).iter().map(|entry| entry.word).collect();
            assert_eq!(rules.stream(), words);
        }
    });
}

#[test]
fn full_sets_fill_64_blocks() {
    on_large_stack(|| {
        for rules in [full::rules(), full::large_cabinet()] {
            assert_eq!(blocks::MOST_WORDS, rules.stream().len());
            assert_eq!(64 * 512, rules.file().len());
            assert!(admit_rules(&rules).is_ok());
        }
    });
}

#[test]
fn the_deepest_nestings_are_admitted() {
    on_large_stack(|| {
        for nesting in nesting::worst() {
            assert!(admit(&nesting.file).is_ok(), "{}", nesting.name);
        }
    });
}

/// The files under examples/ are those that `build_examples` would write now.
#[test]
fn examples_are_up_to_date() {
    let folder = std::path::Path::new(env!("CARGO_MANIFEST_DIR")).join("../examples");
    let written = [
        ("key-cabinet", examples::key_cabinet(2), examples::key_cabinet_names()),
        ("library", examples::library(2, 2, 2), examples::library_names()),
    ];
    for (name, rules, names) in written {
        let text = listing::listing(&rules, &names, admit_rules(&rules).unwrap());
        for (ending, bytes) in [("eb3", rules.file()), ("txt", text.into_bytes())] {
            if let Ok(found) = std::fs::read(folder.join(format!("{name}.{ending}"))) {
                assert!(
                    found == bytes,
                    "examples/{name}.{ending} is stale: run `cargo run --bin build_examples`"
                );
            }
        }
    }
}

/// The name of a case, and the first 300 words of its stream.
fn shown(case: &Case) -> String {
    let contents = case.bytes.chunks(512).flat_map(|block| block.get(4..).unwrap_or(&[]).chunks_exact(2));
    let words: Vec<String> =
        contents.take(300).map(|pair| u16::from_le_bytes([pair[0], pair[1]]).to_string()).collect();
    format!("{} ({} bytes)\nstream: {}", case.name, case.bytes.len(), words.join(" "))
}

fn check(case: &Case) -> Answer {
    let answer = plain::admit(&case.bytes);
    assert!(
        case.expected.meets(answer),
        "plain answers {answer:?}, not {:?}, to {}",
        case.expected,
        shown(case)
    );
    #[cfg(cabinet)]
    {
        let engine = host::engine::admit(&case.bytes);
        assert!(engine == answer, "engine answers {engine:?}, plain {answer:?}, to {}", shown(case));
    }
    answer
}

/// Every kind of case: the plain reader's answer is the one that document 01 asks for, where the generator
/// knows it, the engine's answer is the plain reader's, and every refusal occurs.
#[test]
fn every_refusal_is_met() {
    let rounds = std::env::var("ROUNDS").ok().and_then(|rounds| rounds.parse().ok()).unwrap_or(1);
    let (mut met, mut known) = ([0usize; 9], 0usize);
    on_large_stack(|| {
        every_case(rounds, &mut |case| {
            met[usize::from(check(&case).err().unwrap_or(0))] += 1;
            known += usize::from(case.expected != Expected::Open);
        });
    });
    let who = if cfg!(cabinet) { "the engine and the plain reader" } else { "the plain reader alone" };
    let counts: Vec<String> = (1..9).map(|refusal| format!("{refusal}: {}", met[refusal])).collect();
    let cases: usize = met.iter().sum();
    // Written to the handle, not by println!, so that the test harness does not swallow it.
    let mut output = std::io::stdout().lock();
    writeln!(output, "{cases} cases to {who}, {known} with a known answer").unwrap();
    writeln!(output, "admitted: {}; refused {}", met[0], counts.join(", ")).unwrap();
    drop(output);
    for (answer, &count) in met.iter().enumerate() {
        assert!(count > 0, "no case was answered {answer} (0: admitted)");
    }
}

#[cfg(cabinet)]
mod engine {
    use super::*;
    use host::engine::{admit_nothing, admit_reply, AdmitReply};

    /// A length of 0 may come with any pointer.
    #[test]
    fn no_bytes_and_no_pointer() {
        let refused = AdmitReply { refusal: 1, cells: 0, reach: 0, breadth: 0, size: 0 };
        assert_eq!(refused, admit_nothing());
        assert_eq!(refused, admit_reply(&[]));
    }

    /// A slice may begin at any address, and the bytes after it have no effect.
    #[test]
    fn bytes_at_any_address() {
        let file = examples::key_cabinet(2).file();
        for offset in 0..9 {
            let mut around = vec![0xa5; offset];
            around.extend_from_slice(&file);
            around.extend([0x5a; 600]);
            assert_eq!(sizes(2, 77, 4, 41), host::engine::admit(&around[offset..offset + file.len()]));
        }
    }
}
