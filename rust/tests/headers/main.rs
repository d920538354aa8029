// Made from crates/tests_headers/src/lib.rt by rust/erase.
//! The tests of `header_wire`, over its public calls.

#[path = "../rattle_std/mod.rs"]
mod rattle_std;

#[cfg(test)]
mod arp;
#[cfg(test)]
mod ethernet;
#[cfg(test)]
mod fragments;
#[cfg(test)]
mod headers;
#[cfg(test)]
mod icmpv6;
#[cfg(test)]
mod messages;
#[cfg(test)]
mod options;
#[cfg(test)]
mod refused_messages;
#[cfg(test)]
mod routers;
#[cfg(test)]
mod testing;
