// Made from crates/tests_groups/src/lib.rt by rust/erase.
//! The tests of `group_wire`, over its public calls.

#[path = "../rattle_std/mod.rs"]
mod rattle_std;

#[cfg(test)]
mod messages;
#[cfg(test)]
mod queries;
#[cfg(test)]
mod records;
#[cfg(test)]
mod testing;
#[cfg(test)]
mod times;
