// Made from crates/tests_dhcp_fields/src/lib.rt by rust/erase.
//! The tests of `dhcp_fields`, over its public calls.

#[cfg(test)]
mod leases;
#[cfg(test)]
mod packets;
#[cfg(test)]
mod testing;
