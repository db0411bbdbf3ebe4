//! An admitted rule set, decoded once: the offsets of each function's expressions and of each process's term,
//! and each function's first cell.
//!
//! Document 01, "Blocks and the rule stream", items 2 to 5, and "Memory and the history machine": "one
//! cell for each function and element of its domain, in that order".

use super::reader::{self, Notes, Tables};
use crate::Sizes;

/// The cells of each function.
#[derive(Default)]
pub(super) struct Layout {
    /// How many functions there are.
    pub functions: usize,
    first: [u16; 16],
    elements: [u16; 16],
}

impl Layout {
    /// How many elements the function's domain has.
    pub fn elements(&self, function: usize) -> u16 {
        self.elements[function]
    }

    /// The index of the cell that holds the function's value at this argument; `None` if the argument is
    /// outside the domain, as undefined always is, since it is the largest word.
    #[inline]
    pub fn cell(&self, function: usize, argument: u16) -> Option<usize> {
        (argument < self.elements[function]).then(|| usize::from(self.first[function] + argument))
    }
}

/// The offsets of the parts of the stream, counted from its third word (item 2 begins there).
#[derive(Default)]
struct Places {
    layout: Layout,
    cells: u16,
    /// For each function in turn, the offset of the empty-trace expression, then of the expression for each
    /// label.
    expressions: Vec<u16>,
    /// For each process, its parameter count and the offset of its term.
    processes: [(u8, u16); 32],
    process_count: usize,
}

impl Notes for Places {
    fn function(&mut self, elements: u16) {
        let function = self.layout.functions;
        self.layout.first[function] = self.cells;
        self.layout.elements[function] = elements;
        self.layout.functions += 1;
        self.cells += elements;
    }

    fn expression(&mut self, place: usize) {
        self.expressions.push(place as u16);
    }

    fn process(&mut self, parameters: u8, place: usize) {
        self.processes[self.process_count] = (parameters, place as u16);
        self.process_count += 1;
    }
}

pub(super) struct Rules {
    pub sizes: Sizes,
    pub tables: Tables,
    /// The whole stream, with its first two words.
    stream: Vec<u16>,
    places: Places,
}

impl Rules {
    /// Decodes a block file, or returns refusal 1 to 8.
    pub fn admitted(bytes: &[u8]) -> Result<Rules, u8> {
        let stream = reader::open(bytes)?;
        let mut places = Places::default();
        let (sizes, tables) = reader::read(&stream, &mut places)?;
        Ok(Rules { sizes, tables, stream, places })
    }

    /// Items 2 to 5 of the stream.
    pub fn words(&self) -> &[u16] {
        &self.stream[2..]
    }

    /// C, as an index.
    pub fn cells(&self) -> usize {
        self.sizes.cells as usize
    }

    pub fn layout(&self) -> &Layout {
        &self.places.layout
    }

    /// The function's expression for the empty trace.
    pub fn at_start(&self, function: usize) -> &[u16] {
        self.expression(function * (1 + usize::from(self.tables.label_count)))
    }

    /// The function's expression for a label.
    pub fn at_label(&self, function: usize, label: usize) -> &[u16] {
        self.expression(function * (1 + usize::from(self.tables.label_count)) + 1 + label)
    }

    /// The words from the expression's first word to the end of the stream. An expression's codes determine
    /// where it ends.
    fn expression(&self, number: usize) -> &[u16] {
        &self.words()[usize::from(self.places.expressions[number])..]
    }

    /// The process's parameter count and the offset of its term.
    pub fn process(&self, number: u16) -> (usize, usize) {
        let (parameters, place) = self.places.processes[usize::from(number)];
        (usize::from(parameters), usize::from(place))
    }

    /// The offset of main's term; main is the last process.
    pub fn main(&self) -> usize {
        usize::from(self.places.processes[self.places.process_count - 1].1)
    }
}
