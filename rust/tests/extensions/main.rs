// Made from crates/tests_extensions/src/lib.rt by rust/erase.
//! The tests of `extension_wire`, over its public calls.

#[path = "../rattle_std/mod.rs"]
mod rattle_std;

#[cfg(test)]
mod errors;
#[cfg(test)]
mod interfaces;
#[cfg(test)]
mod labels;
#[cfg(test)]
mod quotes;
#[cfg(test)]
mod structures;
#[cfg(test)]
mod testing;
