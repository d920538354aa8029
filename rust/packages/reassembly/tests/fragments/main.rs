// Made from crates/tests_reassembly/src/lib.rt by rust/erase.
//! The tests of `reassembly`, over its public calls.

#[cfg(test)]
mod fragments;
#[cfg(test)]
mod reassembling;
#[cfg(test)]
mod testing;
