//! The plain interpreter: every operation of document 01 on bytes, in plain Rust, written independently of
//! the engine.
//!
//! The differential tests compare the engine with it, and the benchmarks time it as the plain Rust of the
//! same task. `reader` admits; `operations` has the other operations, over cells, and `by_reader` a run's
//! counts by card reader; `histories` is a second implementation of Run, on trees over the whole history, and
//! shares only admission with the others.

mod by_reader;
mod decoded;
mod evaluation;
pub mod histories;
mod measure;
mod memory;
mod moves;
mod operations;
mod reader;
mod scan;
mod term;
mod trees;
mod unfolding;

pub use operations::{count, make_move, present, run, start};
pub use reader::admit;
