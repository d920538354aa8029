// Made from crates/tests_above/src/lib.rt by rust/erase.
//! The tests of `quote_wire`, `record_wire` and `frame_wire`, over their public calls.

#[path = "../rattle_std/mod.rs"]
mod rattle_std;

#[cfg(test)]
mod frame;
#[cfg(test)]
mod quote;
#[cfg(test)]
mod record;
#[cfg(test)]
mod testing;
