// Made from crates/dump_lines/src/lib.rt by rust/erase.
//! The lines of `wiredump`: what packets that are given in hexadecimal hold.
// Public functions that each line goes through are `#[inline]`, since a function that others can call is inlined less.

mod buffered_line;
mod command;
mod fault;
mod hex_digits;
pub mod line;
mod lines;
pub mod partial_line;
mod program;
mod search;
mod shape;
pub mod words;

pub use fault::Fault;
pub use lines::{run, run_onto, status};
pub use program::run_program;
