// Made from crates/tests_base/src/lib.rt by rust/erase.
//! The tests of `wirebase` and `opt_wire`, over their public calls.

#[path = "../rattle_std/mod.rs"]
mod rattle_std;

#[cfg(test)]
mod base;
#[cfg(test)]
mod options;
#[cfg(test)]
mod testing;
