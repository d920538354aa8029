// Made from crates/icmp6_wire/src/lib.rt by rust/erase.
//! The control protocols of IPv6: ICMPv6, with multicast listener discovery and neighbor discovery.

pub mod icmpv6;
pub mod mld;
pub mod ndisc;
mod writing;
