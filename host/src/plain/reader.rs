//! Admission: from any bytes to the sizes or a refusal, following document 01 directly and written
//! independently of the engine.
//!
//! "Blocks and the rule stream" (refusals 1 to 3, then items 2 to 5), "Unfolding, size and breadth" (7 and
//! 8), and the table's order: the first offending word of the stream decides among 4, 5 and 6, at one word 4
//! before 5 before 6. The stream is read once, from left to right, so the first refusal found is the answer.
//! Main is measured on the way, without unfolding: all copies under a quantifier measure the same, since a
//! variable takes as many words as a constant.

use super::measure::Measure;
use super::scan::{Names, Scan};
use crate::refusal::{BLOCK, BREADTH, EDITION, FORM, KIND, LENGTH, SIZE};
use crate::{Answer, Sizes, MOST_BREADTH, MOST_REACH};

const BLOCK_BYTES: usize = 512;
const HEADER_BYTES: usize = 4;
const CONTENT_WORDS: usize = 254;

/// Receives the offsets of the parts of a stream while it is read, counted from its third word. Admit passes
/// `()`, which ignores them.
pub(super) trait Notes {
    /// The next function begins; its domain has this many elements.
    fn function(&mut self, elements: u16);
    /// The function's next expression begins at this offset, the empty trace's first.
    fn expression(&mut self, place: usize);
    /// The next process has this many parameters, and its term begins at this offset.
    fn process(&mut self, parameters: u8, place: usize);
}

impl Notes for () {
    fn function(&mut self, _: u16) {}
    fn expression(&mut self, _: usize) {}
    fn process(&mut self, _: u8, _: usize) {}
}

/// Admits a block file: C, G, W and the start term's size, or the refusal.
pub fn admit(bytes: &[u8]) -> Answer {
    read(&open(bytes)?, &mut ()).map(|(sizes, _)| sizes)
}

/// Refusals 4 to 8 of a stream. Returns the sizes and the tables of what the stream declares.
pub(super) fn read(words: &[u16], notes: &mut impl Notes) -> Result<(Sizes, Tables), u8> {
    let mut reader = Reader::new(&words[2..], notes);
    let (cells, main) = reader.rules()?;
    reader.end()?;
    if main.reach > MOST_REACH {
        return Err(SIZE);
    }
    if main.breadth > MOST_BREADTH {
        return Err(BREADTH);
    }
    Ok((Sizes { cells, reach: main.reach, breadth: main.breadth, size: main.size }, reader.tables))
}

/// Refusals 1 to 3: whole blocks, then every block's number and sums, then the first two words. Returns the
/// stream.
pub(super) fn open(bytes: &[u8]) -> Result<Vec<u16>, u8> {
    let count = bytes.len() / BLOCK_BYTES;
    if !bytes.len().is_multiple_of(BLOCK_BYTES) || !(1..=64).contains(&count) {
        return Err(LENGTH);
    }
    let mut words = Vec::with_capacity(count * CONTENT_WORDS);
    for (number, block) in bytes.chunks_exact(BLOCK_BYTES).enumerate() {
        if usize::from(u16::from_le_bytes([block[0], block[1]])) != number || !sums_right(block) {
            return Err(BLOCK);
        }
        let content = block[HEADER_BYTES..].chunks_exact(2);
        words.extend(content.map(|pair| u16::from_le_bytes([pair[0], pair[1]])));
    }
    if words[0] != 1 || usize::from(words[1]) != count {
        return Err(EDITION);
    }
    Ok(words)
}

/// How often each content byte counts in sum B.
const WEIGHTS: [u16; BLOCK_BYTES - HEADER_BYTES] = {
    let mut weights = [0; BLOCK_BYTES - HEADER_BYTES];
    let mut place = 0;
    while place < weights.len() {
        weights[place] = (weights.len() - place) as u16;
        place += 1;
    }
    weights
};

/// B is the sum of A's successive values, so a byte counts in B once for itself and once for every later byte
/// that is summed: 510 times for byte 0, 509 for byte 1, then 508 down to 1. The sums stay far below 2^32, so
/// that one remainder at the end is enough.
fn sums_right(block: &[u8]) -> bool {
    let (first, second) = (u32::from(block[0]), u32::from(block[1]));
    let (mut a, mut b) = (first + second, 510 * first + 509 * second);
    for (&byte, &weight) in block[HEADER_BYTES..BLOCK_BYTES].iter().zip(&WEIGHTS) {
        a += u32::from(byte);
        b += u32::from(byte) * u32::from(weight);
    }
    u32::from(block[2]) == a % 255 && u32::from(block[3]) == b % 255
}

/// The domains of a label's or a process's parameters.
#[derive(Clone, Copy, Default)]
pub(super) struct Parameters {
    pub count: u8,
    pub domains: [u8; 4],
}

impl Parameters {
    fn push(&mut self, domain: u16) {
        self.domains[usize::from(self.count)] = domain as u8;
        self.count += 1;
    }

    pub fn as_slice(&self) -> &[u8] {
        &self.domains[..usize::from(self.count)]
    }
}

/// The domains and labels that a stream declares, and the number of functions.
pub(super) struct Tables {
    pub domain_count: u16,
    pub domains: [u8; 16],
    pub label_count: u16,
    pub labels: [Parameters; 64],
    /// The mask bits that have a label.
    pub label_bits: [u16; 4],
    pub function_count: u16,
}

impl Tables {
    pub fn elements(&self, domain: u16) -> u16 {
        u16::from(self.domains[usize::from(domain)])
    }
}

/// A cursor over the stream, and what the words before it have declared.
struct Reader<'a, N> {
    scan: Scan<'a>,
    notes: &'a mut N,
    tables: Tables,
    process_count: u16,
    processes: [(Parameters, Measure); 32],
    /// How many variables are in scope, within a process; their domains are in `scope`.
    in_scope: u16,
    scope: [u8; 8],
}

impl<'a, N: Notes> Reader<'a, N> {
    fn new(words: &'a [u16], notes: &'a mut N) -> Reader<'a, N> {
        Reader {
            scan: Scan::new(words),
            notes,
            tables: Tables {
                domain_count: 0,
                domains: [0; 16],
                label_count: 0,
                labels: [Parameters::default(); 64],
                label_bits: [0; 4],
                function_count: 0,
            },
            process_count: 0,
            processes: [(Parameters::default(), Measure::leaf(0)); 32],
            in_scope: 0,
            scope: [0; 8],
        }
    }

    /// Items 2 to 5. Returns C and main's measures.
    fn rules(&mut self) -> Result<(u32, Measure), u8> {
        self.tables.domain_count = self.scan.count(1, 16)?;
        for domain in 0..usize::from(self.tables.domain_count) {
            self.tables.domains[domain] = self.scan.count(1, 64)? as u8;
        }
        self.tables.label_count = self.scan.count(1, 64)?;
        for label in 0..usize::from(self.tables.label_count) {
            self.tables.labels[label] = self.parameters(2)?;
            self.tables.label_bits[label / 16] |= 1 << (label % 16);
        }
        let cells = self.functions()?;
        let count = self.scan.count(1, 32)?;
        let mut main = Measure::leaf(0);
        for number in 1..=count {
            // The last is main and has no parameter.
            main = self.process(if number == count { 0 } else { 4 })?;
        }
        Ok((cells, main))
    }

    fn parameters(&mut self, most: u16) -> Result<Parameters, u8> {
        let mut parameters = Parameters::default();
        for _ in 0..self.scan.count(0, most)? {
            parameters.push(self.scan.reference(self.tables.domain_count)?);
        }
        Ok(parameters)
    }

    /// Item 4. Returns the number of cells: one for each function and element of its domain.
    fn functions(&mut self) -> Result<u32, u8> {
        self.tables.function_count = self.scan.count(0, 16)?;
        let mut cells = 0;
        for function in 0..self.tables.function_count {
            let domain = self.scan.reference(self.tables.domain_count)?;
            cells += u32::from(self.tables.elements(domain));
            self.notes.function(self.tables.elements(domain));
            self.notes.expression(self.scan.place());
            self.scan.data(Names { variables: 1, now: function, before: 0 }, 1)?;
            for label in 0..usize::from(self.tables.label_count) {
                self.notes.expression(self.scan.place());
                let variables = 1 + u16::from(self.tables.labels[label].count);
                self.scan.data(Names { variables, now: function, before: self.tables.function_count }, 1)?;
            }
        }
        Ok(cells)
    }

    /// One process of item 5: its parameters are variables 0 up. Later processes may call it.
    fn process(&mut self, most: u16) -> Result<Measure, u8> {
        let parameters = self.parameters(most)?;
        self.scope[..4].copy_from_slice(&parameters.domains);
        self.in_scope = u16::from(parameters.count);
        self.notes.process(parameters.count, self.scan.place());
        let measure = self.term()?;
        self.processes[usize::from(self.process_count)] = (parameters, measure);
        self.process_count += 1;
        Ok(measure)
    }

    fn term(&mut self) -> Result<Measure, u8> {
        match self.scan.word()? {
            20 => Ok(Measure::leaf(1)),
            21 => self.action(),
            22 => Ok(self.term()?.sequence(self.term()?)),
            23 => Ok(self.term()?.choice(self.term()?)),
            24 => Ok(self.term()?.star()),
            25 => {
                let masked = self.mask()?;
                Ok(self.term()?.parallel(self.term()?, masked))
            }
            26 => self.guard(),
            // The code that would bind a ninth variable is refused itself.
            27 if self.in_scope < 8 => {
                let domain = self.scan.reference(self.tables.domain_count)?;
                Ok(self.under(domain)?.choice_copies(self.elements(domain)))
            }
            28 if self.in_scope < 8 => {
                let domain = self.scan.reference(self.tables.domain_count)?;
                let masked = self.mask()?;
                Ok(self.under(domain)?.parallel_copies(self.elements(domain), masked))
            }
            29 => self.call(),
            _ => Err(FORM),
        }
    }

    fn elements(&self, domain: u16) -> u32 {
        u32::from(self.tables.elements(domain))
    }

    fn action(&mut self) -> Result<Measure, u8> {
        let label = self.scan.reference(self.tables.label_count)?;
        let parameters = self.tables.labels[usize::from(label)];
        self.arguments(parameters)?;
        Ok(Measure::leaf(2 + 2 * u32::from(parameters.count)))
    }

    /// A call names a lower process, and has the measures of its body.
    fn call(&mut self) -> Result<Measure, u8> {
        let process = self.scan.reference(self.process_count)?;
        let (parameters, measure) = self.processes[usize::from(process)];
        self.arguments(parameters)?;
        Ok(measure)
    }

    /// One argument for each parameter: a constant below its domain's size, or a variable of its
    /// domain, by number.
    fn arguments(&mut self, parameters: Parameters) -> Result<(), u8> {
        for &domain in parameters.as_slice() {
            let fits = match self.scan.word()? {
                1 => self.scan.count(0, 65534)? < u16::from(self.tables.domains[usize::from(domain)]),
                2 => self.scope[usize::from(self.scan.reference(self.in_scope)?)] == domain,
                _ => return Err(FORM),
            };
            if !fits {
                return Err(KIND);
            }
        }
        Ok(())
    }

    /// Four mask words. Returns whether any bit is set.
    fn mask(&mut self) -> Result<bool, u8> {
        self.scan.mask(&self.tables.label_bits)
    }

    /// A guard's condition may name the variables in scope and every function by now, none by before.
    fn guard(&mut self) -> Result<Measure, u8> {
        let from = self.scan.place();
        let functions = self.tables.function_count;
        self.scan.condition(Names { variables: self.in_scope, now: functions, before: 0 })?;
        let condition = (self.scan.place() - from) as u32;
        Ok(self.term()?.guard(condition))
    }

    /// The term under a quantifier, which binds the next free variable.
    fn under(&mut self, domain: u16) -> Result<Measure, u8> {
        self.scope[usize::from(self.in_scope)] = domain as u8;
        self.in_scope += 1;
        let measure = self.term()?;
        self.in_scope -= 1;
        Ok(measure)
    }

    /// The end of the stream: the last used word must be in the last block, so fewer words are left than a
    /// block has; and all of them must be zero.
    fn end(&self) -> Result<(), u8> {
        let rest = self.scan.rest();
        if rest.len() < CONTENT_WORDS && rest.iter().all(|&word| word == 0) {
            Ok(())
        } else {
            Err(FORM)
        }
    }
}
