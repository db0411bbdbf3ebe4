//! Random well-formed rule sets, and streams with faults: one wrong word, two wrong words, an early end, a
//! wrong end.
//!
//! Document 01, refusals 3 to 6: "4, 5 and 6 by the first offending word of the stream, at one word 4
//! before 5 before 6", "stream cut short; wrong end".

use super::random::Random;
use super::roles::{marked, Marked};
use super::well_formed::{rule_set, Shape, SHAPES};
use super::{clauses, full, lengthened, Case, Expected, Taker};
use crate::blocks::{blocks_for, file_in, file_of, CONTENT_WORDS, MOST_BLOCKS};
use crate::refusal::{BREADTH, EDITION, FORM, KIND, REFERENCE, SIZE};
use crate::rules::{mask_of, Argument, RuleSet, Term, NO_LABELS};
use crate::{examples, unfold};

/// Main is not unfolded to more words than this: it would take more time than the case is worth.
const MOST_UNFOLDED: usize = 20_000;

pub fn cases(rounds: usize, take: Taker) {
    well_formed(rounds, take);
    let mut random = Random::new(3);
    let examples = [examples::key_cabinet(2), examples::library(2, 2, 2), clauses::base()];
    examples.iter().for_each(|rules| every_word_wrong(rules, take));
    for shape in [SHAPES[0], SHAPES[1], SHAPES[2]] {
        for _ in 0..8 * rounds {
            every_word_wrong(&rule_set(&mut random, shape), take);
        }
    }
    for shape in [SHAPES[3], SHAPES[4], SHAPES[5]] {
        for _ in 0..3 * rounds {
            let rules = rule_set(&mut random, shape);
            some_words_wrong(&mut random, &rules, 40, take);
        }
    }
    some_words_wrong(&mut random, &full::rules(), 100, take);
    for rules in &examples {
        each_word_anything(rules, take);
        two_words_wrong(&mut random, rules, 40 * rounds, take);
        zeroed_from_each_word(rules, take);
        wrong_ends(rules, Expected::Admitted, take);
    }
    [examples::key_cabinet(2), clauses::base()].iter().for_each(|rules| cut_at_each_word(rules, take));
    wrong_ends(&full::rules(), Expected::Admitted, take);
    cut_at_64_blocks(take);
    // Refusals 7 and 8 are tested last: any fault of the stream is refused before them.
    let too_large = examples::library(16, 16, 2);
    every_word_wrong(&too_large, take);
    wrong_ends(&too_large, Expected::Refused(SIZE), take);
    every_word_wrong(&examples::copies_of_choice(11), take);
    wrong_ends(&broad_cabinet(), Expected::Refused(BREADTH), take);
}

/// The key cabinet in parallel with eleven copies of P11's choice, which are refused 8.
fn broad_cabinet() -> RuleSet {
    let mut rules = examples::key_cabinet(11);
    let take = || Term::action(0, &[Argument::Constant(0)]);
    let copies = Term::parallel_over(0, mask_of(&[0]), Term::choice(take(), take()));
    let main = rules.processes.last_mut().expect("main");
    main.term = Term::parallel(NO_LABELS, main.term.clone(), copies);
    rules
}

/// A random source seeded with the shape's name, so that the sets of one shape do not depend on those of the
/// others.
fn random_like(shape: Shape) -> Random {
    Random::new(shape.name.bytes().fold(7, |seed, byte| seed * 31 + u64::from(byte)))
}

/// Random rule sets. The expected answer is computed by unfolding main, if that gives at most `MOST_UNFOLDED`
/// words.
fn well_formed(rounds: usize, take: Taker) {
    for shape in SHAPES {
        let mut random = random_like(shape);
        for number in 0..150 * rounds {
            let rules = rule_set(&mut random, shape);
            let expected = unfold::answer(&rules, MOST_UNFOLDED).map_or(Expected::Open, Expected::Answer);
            take(Case::of_rules(format!("{} set {number}", shape.name), &rules, expected));
        }
    }
    take(Case::of_rules("the full set", &full::rules(), Expected::Admitted));
}

fn words_of(marked: &[Marked]) -> Vec<u16> {
    marked.iter().map(|entry| entry.word).collect()
}

/// The case of a stream with one word replaced, refused at that word.
fn replaced(words: &[u16], at: usize, entry: &Marked, (fault, refusal): (u16, u8)) -> Case {
    let mut words = words.to_vec();
    words[at] = fault;
    let name = format!("word {at} of {} is {fault}, not {}, {:?}", words.len(), entry.word, entry.role);
    Case::new(name, file_of(&words), Expected::Refused(refusal))
}

/// Each word of the stream replaced by each word that is wrong there.
fn every_word_wrong(rules: &RuleSet, take: Taker) {
    let stream = marked(rules);
    let words = words_of(&stream);
    for (at, entry) in stream.iter().enumerate() {
        for fault in entry.role.faults(entry.word) {
            take(replaced(&words, at, entry, fault));
        }
    }
}

/// The same for some words of a long stream, among them the last.
fn some_words_wrong(random: &mut Random, rules: &RuleSet, count: usize, take: Taker) {
    let stream = marked(rules);
    let words = words_of(&stream);
    for number in 0..count {
        let at = if number == 0 { words.len() - 1 } else { random.below(words.len()) };
        let faults = stream[at].role.faults(stream[at].word);
        if !faults.is_empty() {
            take(replaced(&words, at, &stream[at], *random.pick(&faults)));
        }
    }
}

/// Each word of the stream replaced by each small number and some large ones, right or wrong: a code or count
/// that is allowed there changes the meaning of the words after it.
fn each_word_anything(rules: &RuleSet, take: Taker) {
    let stream = rules.stream();
    for at in 0..stream.len() {
        for word in (0..=66).chain([255, 256, 257, 32767, 32768, 65534, 65535]) {
            let mut words = stream.clone();
            words[at] = word;
            take(Case::new(format!("word {at} is {word}"), file_of(&words), Expected::Open));
        }
    }
}

/// Two wrong words, for each pair of refusals in both orders: the first wrong word decides.
fn two_words_wrong(random: &mut Random, rules: &RuleSet, count: usize, take: Taker) {
    let stream = marked(rules);
    let words = words_of(&stream);
    let by_refusal = [EDITION, FORM, REFERENCE, KIND].map(|refusal| faults_of(&stream, refusal));
    // The key cabinet has no fault of kind: it has one domain, and no constant among its arguments.
    let found: Vec<&Vec<Fault>> = by_refusal.iter().filter(|faults| !faults.is_empty()).collect();
    for first in &found {
        for second in &found {
            for _ in 0..count {
                let (one, other) = (random.pick(first), random.pick(second));
                if one.at < other.at {
                    let mut words = words.clone();
                    words[one.at] = one.word;
                    words[other.at] = other.word;
                    let name = format!("{one:?}, then {other:?}");
                    take(Case::new(name, file_of(&words), Expected::Refused(one.refusal)));
                }
            }
        }
    }
}

/// A word that is wrong at a place of the stream, with its refusal.
#[derive(Debug)]
struct Fault {
    at: usize,
    word: u16,
    refusal: u8,
}

/// All faults with one refusal.
fn faults_of(stream: &[Marked], refusal: u8) -> Vec<Fault> {
    let at_word = |(at, entry): (usize, &Marked)| {
        let faults = entry.role.faults(entry.word).into_iter();
        faults.map(|(word, refusal)| Fault { at, word, refusal }).collect::<Vec<Fault>>()
    };
    stream.iter().enumerate().flat_map(at_word).filter(|fault| fault.refusal == refusal).collect()
}

/// For each word after the first function's empty-trace expression, a file that ends before it: the
/// expression is lengthened until that word would be the first of the next block. (Domains and labels take
/// less than a block, so no stream is cut before its functions.)
fn cut_at_each_word(rules: &RuleSet, take: Taker) {
    let length = rules.stream().len();
    for cut in after_first_expression(rules)..length {
        let missing = CONTENT_WORDS - cut % CONTENT_WORDS;
        let missing = if missing == 1 { missing + CONTENT_WORDS } else { missing };
        let mut longer = rules.clone();
        let first = &mut longer.functions[0];
        first.at_start = lengthened(first.at_start.clone(), missing);
        let mut words = longer.stream();
        let blocks = (cut + missing) / CONTENT_WORDS;
        words[1] = blocks as u16;
        take(Case::new(format!("cut before word {cut}"), file_in(&words, blocks), Expected::Refused(FORM)));
        words[1] += 1;
        let whole = file_in(&words, blocks + 1);
        take(Case::new(format!("not cut before word {cut}"), whole, Expected::Admitted));
    }
}

/// The offset of the first word after the first function's empty-trace expression.
fn after_first_expression(rules: &RuleSet) -> usize {
    let [domains, labels, ..] = rules.sections();
    let mut expression = Vec::new();
    rules.functions[0].at_start.spell(&mut expression);
    // The edition and the count of blocks come first; the function count and the function's domain precede
    // the expression.
    2 + domains.len() + labels.len() + 2 + expression.len()
}

/// A stream that would need a 65th block, cut at the end of the 64th.
fn cut_at_64_blocks(take: Taker) {
    for over in [2, 3, 10, 100, 254, 300] {
        let mut rules = full::rules();
        let first = &mut rules.functions[0];
        first.at_start = lengthened(first.at_start.clone(), over);
        let mut words = rules.stream();
        words[1] = MOST_BLOCKS as u16;
        let file = file_in(&words, MOST_BLOCKS);
        take(Case::new(format!("{over} words more than 64 blocks hold"), file, Expected::Refused(FORM)));
    }
}

/// From each word in turn, the rest of the stream is zero. Zero is also a code, a count and a number, so
/// several zeros may be read before one is refused.
fn zeroed_from_each_word(rules: &RuleSet, take: Taker) {
    let words = rules.stream();
    for from in 0..words.len() {
        let expected = if from < 2 { Expected::Refused(EDITION) } else { Expected::Open };
        let file = file_in(&words[..from], blocks_for(words.len()));
        take(Case::new(format!("zeros from word {from}"), file, expected));
    }
}

/// A word other than zero after the end, or a last block without a used word: refused 4. The same streams
/// with a right end get the answer `right`.
fn wrong_ends(rules: &RuleSet, right: Expected, take: Taker) {
    let exact = filled_up(rules, 0);
    let one_more = filled_up(rules, 1);
    for (name, words) in
        [("as it is", rules.stream()), ("full to the block's end", exact), ("one word over", one_more)]
    {
        let blocks = blocks_for(words.len());
        if blocks > MOST_BLOCKS {
            continue;
        }
        take(Case::new(format!("end {name}"), file_of(&words), right));
        for place in words.len()..blocks * CONTENT_WORDS {
            for wrong in [1, 256, 65535] {
                let mut words = words.clone();
                words.resize(place, 0);
                words.push(wrong);
                let name = format!("end {name}, {wrong} at word {place}");
                take(Case::new(name, file_of(&words), Expected::Refused(FORM)));
            }
        }
        unused_blocks(name, &words, take);
    }
}

fn unused_blocks(name: &str, words: &[u16], take: Taker) {
    let used = blocks_for(words.len());
    for blocks in used + 1..=(used + 2).min(MOST_BLOCKS) {
        let mut words = words.to_vec();
        words[1] = blocks as u16;
        let file = file_in(&words, blocks);
        take(Case::new(format!("end {name}, {blocks} blocks"), file, Expected::Refused(FORM)));
    }
}

/// The stream lengthened to fill its blocks exactly, and by `over` words more.
fn filled_up(rules: &RuleSet, over: usize) -> Vec<u16> {
    let words = rules.stream().len();
    let missing = (CONTENT_WORDS - words % CONTENT_WORDS) % CONTENT_WORDS + over;
    let mut longer = rules.clone();
    let first = &mut longer.functions[0];
    first.at_start =
        lengthened(first.at_start.clone(), if missing == 1 { 1 + CONTENT_WORDS } else { missing });
    longer.stream()
}
