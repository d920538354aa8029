// Made from crates/tests_capture/src/lib.rt by rust/erase.
//! The tests of `capture`, over its public calls.

#[cfg(test)]
mod captures;
#[cfg(test)]
mod testing;
