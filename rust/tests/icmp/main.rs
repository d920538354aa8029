// Made from crates/tests_icmp/src/lib.rt by rust/erase.
//! The tests of `icmp4_wire` and `icmp6_wire`, over their public calls.

#[path = "../rattle_std/mod.rs"]
mod rattle_std;

#[cfg(test)]
mod icmp4;
#[cfg(test)]
mod icmp6;
#[cfg(test)]
mod testing;
