// Made from crates/dhcp_wire/src/lib.rt by rust/erase.
//! The Dynamic Host Configuration Protocol of IPv4.

pub mod dhcpv4;
