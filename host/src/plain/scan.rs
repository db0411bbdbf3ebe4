//! A cursor over words that reads data expressions and conditions.
//!
//! Document 01, "Values and conditions": the form of data and conditions, with refusals 4 and 5 as in a
//! stream. In a given term either becomes 10.

use crate::refusal::{FORM, REFERENCE};

/// How many variables an expression may use, and how many functions, from 0 up, now and before may name. If
/// before may name none, as in an empty-trace expression or a guard, its code itself is refused.
#[derive(Clone, Copy)]
pub(super) struct Names {
    pub variables: u16,
    pub now: u16,
    pub before: u16,
}

pub(super) struct Scan<'a> {
    rest: std::slice::Iter<'a, u16>,
    length: usize,
}

impl<'a> Scan<'a> {
    pub fn new(words: &'a [u16]) -> Scan<'a> {
        Scan { rest: words.iter(), length: words.len() }
    }

    /// The offset of the next word.
    #[inline]
    pub fn place(&self) -> usize {
        self.length - self.rest.len()
    }

    pub fn rest(&self) -> &'a [u16] {
        self.rest.as_slice()
    }

    /// The next word; refusal 4 if the stream has ended.
    #[inline]
    pub fn word(&mut self) -> Result<u16, u8> {
        self.rest.next().copied().ok_or(FORM)
    }

    /// A count or size from least to most.
    #[inline]
    pub fn count(&mut self, least: u16, most: u16) -> Result<u16, u8> {
        let word = self.word()?;
        if (least..=most).contains(&word) {
            Ok(word)
        } else {
            Err(FORM)
        }
    }

    /// A number that must be below `defined`.
    #[inline]
    pub fn reference(&mut self, defined: u16) -> Result<u16, u8> {
        let word = self.word()?;
        if word < defined {
            Ok(word)
        } else {
            Err(REFERENCE)
        }
    }

    /// Reads `count` data expressions in a row. `to_come` counts the expressions still to read: each code
    /// adds its operands to it, so that only conditions take a call.
    pub fn data(&mut self, names: Names, count: usize) -> Result<(), u8> {
        let mut to_come = count;
        while to_come > 0 {
            to_come -= 1;
            match self.word()? {
                0 => {}
                1 => _ = self.count(0, 65534)?,
                2 => _ = self.reference(names.variables)?,
                3 | 4 => to_come += 2,
                5 => {
                    self.condition(names)?;
                    to_come += 2;
                }
                6 => {
                    self.reference(names.now)?;
                    to_come += 1;
                }
                7 if names.before > 0 => {
                    self.reference(names.before)?;
                    to_come += 1;
                }
                _ => return Err(FORM),
            }
        }
        Ok(())
    }

    /// Reads a condition, counting its operands in the same way.
    pub fn condition(&mut self, names: Names) -> Result<(), u8> {
        let mut to_come = 1usize;
        while to_come > 0 {
            to_come -= 1;
            match self.word()? {
                8 | 9 => self.data(names, 2)?,
                10 | 11 => to_come += 2,
                12 => to_come += 1,
                13 => {}
                _ => return Err(FORM),
            }
        }
        Ok(())
    }

    /// Reads four mask words, whose bits must have a label. Returns whether any is set.
    pub fn mask(&mut self, label_bits: &[u16; 4]) -> Result<bool, u8> {
        let mut masked = false;
        for defined in label_bits {
            let word = self.word()?;
            if word & !defined != 0 {
                return Err(REFERENCE);
            }
            masked |= word != 0;
        }
        Ok(masked)
    }
}
