// Made from crates/listing/src/lib.rt by rust/erase.
//! Listings: what packets hold, printed a name or a field a line, after `name=`.
//!
//! Each `show_` function prints what the grammar reads in some octets, or `refused` where it reads nothing.

pub mod dhcp;
pub mod hbh;
pub mod icmp4;
pub mod icmp6;
pub mod igmp;
pub mod ipv6;
pub mod mld;
pub mod name;
pub mod ndisc;
pub mod ndopt;
pub mod printer;
pub mod question;
