// Made from crates/tests_wiredump/src/lib.rt by rust/erase.
//! The tests of `listing` and `dump_lines`, over their public calls.

#[cfg(test)]
mod printer;
#[cfg(test)]
mod testing;
#[cfg(test)]
mod wiredump;
