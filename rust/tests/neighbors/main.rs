// Made from crates/tests_neighbors/src/lib.rt by rust/erase.
//! The tests of `neighbor_wire`, over its public calls.

#[path = "../rattle_std/mod.rs"]
mod rattle_std;

#[cfg(test)]
mod names;
#[cfg(test)]
mod options;
#[cfg(test)]
mod prefixes;
#[cfg(test)]
mod refusals;
#[cfg(test)]
mod services;
#[cfg(test)]
mod testing;
#[cfg(test)]
mod writing;
