//! A running term: its words, with the size of each of its parts; and the check of a given term.
//!
//! Document 01, "Unfolding, size and breadth": "A running term uses 20 to 26 without variables, and 30
//! for done"; refusals 10 ("a given term isn't exactly one running term of this rule set within 7's and
//! 8's limits") and 11 ("event isn't one running leaf 20 or 21").

use super::decoded::Rules;
use super::measure::Measure;
use super::moves::Packed;
use super::scan::{Names, Scan};
use crate::refusal::{FORM, KIND, STRANGER, TERM};
use crate::{MOST_BREADTH, MOST_REACH};

pub(super) const INTERNAL: u16 = 20;
pub(super) const ACTION: u16 = 21;
pub(super) const DONE: u16 = 30;

/// The words of a running term. At the offset where a part begins, that is, a term or a guard's condition,
/// `sizes` has its number of words; other entries of `sizes` have no meaning.
pub(super) struct Term {
    pub words: Vec<u16>,
    pub sizes: Vec<u16>,
}

impl Term {
    /// An empty term, with room for n words.
    pub fn with_room(words: usize) -> Term {
        Term { words: Vec::with_capacity(words), sizes: vec![0; words] }
    }

    /// Stores the size of the part that began at offset `from` and ends here.
    pub fn close(&mut self, from: usize) {
        self.sizes[from] = (self.words.len() - from) as u16;
    }

    /// The number of words of the part that begins at this offset.
    #[inline]
    pub fn size(&self, place: usize) -> usize {
        usize::from(self.sizes[place])
    }

    /// The offset of the part after the one that begins at this offset.
    #[inline]
    pub fn after(&self, place: usize) -> usize {
        place + self.size(place)
    }

    /// The four mask words of the parallel that begins at this offset, as one number: bit n is label n.
    #[inline]
    pub fn mask(&self, place: usize) -> u64 {
        let word = |number: usize| u64::from(self.words[place + 1 + number]) << (16 * number);
        word(0) | word(1) | word(2) | word(3)
    }
}

/// A given term that has been checked, with its reach.
pub(super) struct Given {
    pub term: Term,
    pub reach: usize,
}

/// The words of a slice; an odd last byte is dropped.
pub(super) fn words_of(bytes: &[u8]) -> Vec<u16> {
    bytes.chunks_exact(2).map(|pair| u16::from_le_bytes([pair[0], pair[1]])).collect()
}

/// Checks a given term: refusal 10. A term is never larger than its reach, so one with more words than the
/// limit is refused unread.
pub(super) fn given(rules: &Rules, bytes: &[u8]) -> Result<Given, u8> {
    if bytes.len() % 2 == 1 || bytes.len() > 2 * MOST_REACH as usize {
        return Err(TERM);
    }
    let words = words_of(bytes);
    let mut term = Term { sizes: vec![0; words.len()], words };
    let parts = formed(rules, &mut term).map_err(|_| TERM)?;
    let measure = measured(&mut term, &parts);
    if measure.reach > MOST_REACH || measure.breadth > MOST_BREADTH {
        return Err(TERM);
    }
    Ok(Given { term, reach: measure.reach as usize })
}

/// Checks a given event: refusal 11.
pub(super) fn event(rules: &Rules, bytes: &[u8]) -> Result<Packed, u8> {
    let words = words_of(bytes);
    if bytes.len() % 2 == 1 {
        return Err(STRANGER);
    }
    match words[..] {
        [INTERNAL] => Ok(Packed::INTERNAL),
        [ACTION, ..] => {
            let mut scan = Scan::new(&words[1..]);
            match action(rules, &mut scan) {
                Ok(()) if scan.rest().is_empty() => Ok(Packed::of(&words)),
                _ => Err(STRANGER),
            }
        }
        _ => Err(STRANGER),
    }
}

/// Reads a given term to its end, exactly one term, and returns the offset of each of its parts. Operands are
/// counted in `to_come`, not read recursively. Which error a fault returns does not matter: the caller turns
/// each into 10.
fn formed(rules: &Rules, term: &mut Term) -> Result<Vec<u16>, u8> {
    let names = Names { variables: 0, now: rules.tables.function_count, before: 0 };
    let mut parts = Vec::with_capacity(term.words.len());
    let mut scan = Scan::new(&term.words);
    let mut to_come = 1usize;
    while to_come > 0 {
        to_come -= 1;
        let place = scan.place();
        parts.push(place as u16);
        match scan.word()? {
            INTERNAL | DONE => {}
            ACTION => action(rules, &mut scan)?,
            22 | 23 => to_come += 2,
            24 => to_come += 1,
            25 => {
                scan.mask(&rules.tables.label_bits)?;
                to_come += 2;
            }
            26 => {
                scan.condition(names)?;
                term.sizes[place + 1] = (scan.place() - place - 1) as u16;
                to_come += 1;
            }
            _ => return Err(FORM),
        }
    }
    if scan.rest().is_empty() {
        Ok(parts)
    } else {
        Err(FORM)
    }
}

/// An action's label and arguments, which must be constants of the parameter's domain: a running term has no
/// variables.
fn action(rules: &Rules, scan: &mut Scan) -> Result<(), u8> {
    let label = scan.reference(rules.tables.label_count)?;
    for &domain in rules.tables.labels[usize::from(label)].as_slice() {
        if scan.word()? != 1 || scan.word()? >= rules.tables.elements(u16::from(domain)) {
            return Err(KIND);
        }
    }
    Ok(())
}

/// Measures the parts of a term from the last to the first, so that operands are measured before the part
/// they belong to, and the left operand is on top of the stack. Stores the sizes, and returns the measures of
/// the whole term.
fn measured(term: &mut Term, parts: &[u16]) -> Measure {
    let mut open: Vec<Measure> = Vec::with_capacity(64);
    let mut end = term.words.len();
    for &part in parts.iter().rev() {
        let place = usize::from(part);
        let code = term.words[place];
        let measure = match code {
            INTERNAL => Measure::leaf(1),
            DONE => Measure { breadth: 0, ..Measure::leaf(1) },
            ACTION => Measure::leaf((end - place) as u32),
            _ => {
                let left = open.pop().expect("the first operand");
                match code {
                    24 => left.star(),
                    26 => left.guard(u32::from(term.sizes[place + 1])),
                    _ => {
                        let right = open.pop().expect("the second operand");
                        match code {
                            22 => left.sequence(right),
                            23 => left.choice(right),
                            _ => left.parallel(right, term.mask(place) != 0),
                        }
                    }
                }
            }
        };
        term.sizes[place] = measure.size as u16;
        open.push(measure);
        end = place;
    }
    open.pop().expect("the whole term")
}
