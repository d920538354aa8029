// Made from crates/tests_dhcp_dns/src/lib.rt by rust/erase.
//! The tests of `dhcp_wire` and `dns_wire`, over their public calls.

#[path = "../rattle_std/mod.rs"]
mod rattle_std;

#[cfg(test)]
mod dhcp;
#[cfg(test)]
mod dns;
#[cfg(test)]
mod testing;
