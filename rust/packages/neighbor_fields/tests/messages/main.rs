// Made from crates/tests_neighbor_fields/src/lib.rt by rust/erase.
//! The tests of `neighbor_fields`, over its public calls.

#[cfg(test)]
mod groups;
#[cfg(test)]
mod neighbors;
#[cfg(test)]
mod options;
#[cfg(test)]
mod printed;
#[cfg(test)]
mod testing;
