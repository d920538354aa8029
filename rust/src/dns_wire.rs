// Made from crates/dns_wire/src/lib.rt by rust/erase.
//! The messages of the Domain Name System, and the walk over a name that is written in parts.

pub mod dns;
pub mod octets;
