// Made from crates/icmp4_wire/src/lib.rt by rust/erase.
//! The control protocols of IPv4: ICMP and IGMP.

pub mod icmpv4;
pub mod igmp;
