//! Running terms with one fault: a code, number, argument, mask bit or constant that is not allowed in its
//! place; terms that are cut short, have something after them, or an odd byte; terms above the limits.
//!
//! Document 01, refusal 10: "a given term isn't exactly one running term of this rule set within 7's and
//! 8's limits". And terms just within those limits, which pass.

use super::random::Random;
use super::roles::{codes_but, Role};
use super::{condition_of, running};
use crate::bytes_of;
use crate::rules::RuleSet;

/// The right term with one wrong word, in every way, each with a name for what is wrong.
pub fn one_word(rules: &RuleSet, right: &[u16]) -> Vec<(String, Vec<u8>)> {
    let mut marking = Marking { rules, words: right, place: 0, faults: Vec::new() };
    marking.term();
    let mut terms = Vec::new();
    for (place, name, words) in marking.faults {
        for word in words {
            let mut wrong = right.to_vec();
            wrong[place] = word;
            terms.push((format!("{name} {word} at {place} of {right:?}"), bytes_of(&wrong)));
        }
    }
    terms
}

/// A walk over a right term that notes for each word which words would be wrong in its place.
struct Marking<'a> {
    rules: &'a RuleSet,
    words: &'a [u16],
    place: usize,
    faults: Vec<(usize, &'static str, Vec<u16>)>,
}

impl Marking<'_> {
    /// Notes the wrong words for the next word by its role, and returns that word.
    fn role(&mut self, name: &'static str, role: Role) -> u16 {
        let word = self.words[self.place];
        self.word(name, role.faults(word))
    }

    fn word(&mut self, name: &'static str, faults: Vec<(u16, u8)>) -> u16 {
        self.faults.push((self.place, name, faults.into_iter().map(|(word, _)| word).collect()));
        self.place += 1;
        self.words[self.place - 1]
    }

    fn term(&mut self) {
        let running = |code| (20..=26).contains(&code) || code == 30;
        match self.word("term code", codes_but(running)) {
            21 => self.action(),
            22 | 23 => {
                self.term();
                self.term();
            }
            24 => self.term(),
            25 => {
                for number in 0..4 {
                    let labels = (0..self.rules.labels.len()).filter(|label| label / 16 == number);
                    let defined = labels.fold(0, |bits, label| bits | 1 << (label % 16));
                    self.role("mask", Role::MaskWord { defined });
                }
                self.term();
                self.term();
            }
            26 => {
                self.condition();
                self.term();
            }
            _ => {}
        }
    }

    fn action(&mut self) {
        let label = self.role("label", Role::Reference { defined: self.rules.labels.len() as u16 });
        for &domain in &self.rules.labels[usize::from(label)] {
            self.word("argument code", codes_but(|code| code == 1));
            let elements = self.rules.domains[usize::from(domain)];
            self.role("argument", Role::ArgumentConstant { elements });
        }
    }

    fn condition(&mut self) {
        match self.role("condition code", Role::ConditionCode) {
            8 | 9 => {
                self.data();
                self.data();
            }
            10 | 11 => {
                self.condition();
                self.condition();
            }
            12 => self.condition(),
            _ => {}
        }
    }

    /// Variables and before are not allowed in a running term.
    fn data(&mut self) {
        match self.word("data code", codes_but(|code| code <= 6 && code != 2)) {
            1 => _ = self.role("constant", Role::Constant),
            3 | 4 => {
                self.data();
                self.data();
            }
            5 => {
                self.condition();
                self.data();
                self.data();
            }
            6 => {
                self.role("function", Role::Reference { defined: self.rules.functions.len() as u16 });
                self.data();
            }
            _ => {}
        }
    }
}

/// A right term cut short, and one with something after it, by whole words and by half a word.
pub fn ends(random: &mut Random, right: &[u16]) -> Vec<(String, Vec<u8>)> {
    let bytes = bytes_of(right);
    let mut terms = Vec::new();
    for length in [0, 1, 2, bytes.len() - 2, bytes.len() - 1, random.below(bytes.len())] {
        terms.push((
            format!("cut to {length} bytes: {right:?}"),
            bytes[..length.min(bytes.len() - 1)].to_vec(),
        ));
    }
    terms.push((format!("half a word after {right:?}"), [&bytes[..], &[0]].concat()));
    for word in [0, 1, 13, 20, 30, 65535] {
        terms.push((format!("{word} after {right:?}"), [bytes.clone(), bytes_of(&[word])].concat()));
    }
    terms
}

/// A term of n words, whose reach is its size and whose breadth is 1.
fn long(words: usize) -> Vec<u16> {
    let mut term = vec![26];
    condition_of(words - 2).spell(&mut term);
    term.push(20);
    term
}

fn parallel(mask: u16, sides: [&[u16]; 2]) -> Vec<u16> {
    [&[25, mask, 0, 0, 0], sides[0], sides[1]].concat()
}

/// Terms at the limits: a name for each, whether it passes, and its words.
pub fn limits(rules: &RuleSet) -> Vec<(&'static str, bool, Vec<u16>)> {
    let star = |inner: &[u16]| [&[24], inner].concat();
    let sequence = |left: &[u16], right: &[u16]| [&[22], left, right].concat();
    let choice = |left: &[u16], right: &[u16]| [&[23], left, right].concat();
    let action = running::action(
        &mut Random::new(3),
        &RuleSet { labels: vec![rules.labels[0].clone()], ..rules.clone() },
    );
    // 2^16 - 1 moves: 16 copies of an action, synchronised.
    let broad = (1..16).fold(action.clone(), |inner, _| parallel(1, [&action, &inner]));
    // The mask has label 1, not the action's: the rule set has at least two labels.
    let apart = (0..600).fold(broad.clone(), |inner, _| parallel(2, [&[30], &inner]));
    let dones = (0..600).fold(broad.clone(), |inner, _| parallel(1, [&[30], &inner]));
    vec![
        ("8,192 words", true, long(8192)),
        ("8,193 words", false, long(8193)),
        ("9,000 words", false, long(9000)),
        ("a star that reaches 8,192", true, star(&long(4095))),
        ("a star that reaches 8,194", false, star(&long(4096))),
        ("a sequence that reaches 8,192 by its left", true, sequence(&star(&long(4000)), &long(189))),
        ("a sequence that reaches 8,193 by its left", false, sequence(&star(&long(4000)), &long(190))),
        ("a sequence that reaches 8,194 by its right", false, sequence(&[30], &star(&long(4096)))),
        ("a choice that reaches 8,194 by its left", false, choice(&star(&long(4096)), &[30])),
        ("4,200 stars around done", false, [vec![24; 4200], vec![30]].concat()),
        ("W 65,535", true, broad.clone()),
        ("W 65,535 beside 600 times done", true, dones),
        ("W 65,535 beside 600 times done, another mask", true, apart),
        ("W 65,535 in sequence", true, sequence(&broad, &broad)),
        ("W 65,536 by a star", false, star(&broad)),
        ("W 65,536 by a choice", false, choice(&broad, &[20])),
        ("W 65,536 after a step", false, sequence(&[20], &choice(&[20], &broad))),
        ("W far above 2^64", false, (0..200).fold(action.clone(), |inner, _| parallel(1, [&action, &inner]))),
    ]
}
