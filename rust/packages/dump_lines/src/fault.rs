// Made from crates/dump_lines/src/fault.rt by rust/erase.
//! Faults: what ends a run before its input ends.

/// What ends a run before its input ends.
#[derive(Debug, PartialEq, Eq, Clone, Copy)]
pub enum Fault {
    /// The input could not be read.
    Read,
    /// The output could not be written.
    Write,
    /// There was no memory.
    Memory,
}
