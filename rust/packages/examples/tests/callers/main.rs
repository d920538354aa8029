// Made from crates/tests_examples/src/lib.rt by rust/erase.
//! The tests of `examples`, over its public calls.

#[cfg(test)]
mod callers;
#[cfg(test)]
mod testing;
