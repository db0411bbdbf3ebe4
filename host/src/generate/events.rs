//! Right and wrong events.
//!
//! Document 01, refusal 11: "event isn't one running leaf 20 or 21 of this rule set"; an odd last byte is
//! refused too.

use super::random::Random;
use super::running;
use crate::bytes_of;
use crate::rules::RuleSet;

/// An event of the rule set: the internal one, or an action.
pub fn right(random: &mut Random, rules: &RuleSet) -> Vec<u8> {
    bytes_of(&if random.chance(20) { vec![20] } else { running::action(random, rules) })
}

/// Byte strings that are not events of the rule set, each with a name for what is wrong.
pub fn wrong(random: &mut Random, rules: &RuleSet) -> Vec<(String, Vec<u8>)> {
    let mut events: Vec<(String, Vec<u8>)> = vec![("nothing".to_string(), Vec::new())];
    let mut words = |name: &str, words: &[u16]| events.push((name.to_string(), bytes_of(words)));
    for code in (0..=32).filter(|code| *code != 20) {
        words("a code alone", &[code]);
    }
    words("internal and a word after it", &[20, 0]);
    words("internal twice", &[20, 20]);
    words("internal by its low byte", &[256 + 20]);
    let labels = rules.labels.len() as u16;
    for label in [labels, labels + 1, labels + 256, 65535] {
        words("no label", &[21, label]);
        words("no label, with an argument", &[21, label, 1, 0]);
    }
    for (label, parameters) in (0..).zip(&rules.labels) {
        let mut action = vec![21, label];
        parameters.iter().for_each(|_| action.extend([1, 0]));
        words("a word after an action", &[&action[..], &[0]].concat());
        words("an argument too many", &[&action[..], &[1, 0]].concat());
        words("an action of another code", &[&[22], &action[1..]].concat());
        words("an action under a guard", &[&[26, 13], &action[..]].concat());
        for length in 1..action.len() {
            words("an action cut short", &action[..length]);
        }
        for (number, &domain) in parameters.iter().enumerate() {
            let place = 2 + 2 * number;
            for code in (0..=30).chain([257, 65535]).filter(|&code| code != 1) {
                action[place] = code;
                words("an argument of another code", &action);
            }
            action[place] = 1;
            let elements = rules.domains[usize::from(domain)];
            for value in [elements, elements + 1, elements + 256, 65534, 65535] {
                action[place + 1] = value;
                words("an argument outside its domain", &action);
            }
            action[place + 1] = 0;
        }
    }
    for _ in 0..5 {
        let right = right(random, rules);
        events.push(("half a word too much".to_string(), [&right[..], &[0]].concat()));
        events.push(("half a word too little".to_string(), right[..right.len() - 1].to_vec()));
        events.push(("two events".to_string(), right.repeat(2)));
    }
    events
}
