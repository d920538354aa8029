// Made from crates/opt_wire/src/lib.rt by rust/erase.
//! Options of IPv6 extension headers with the headers that carry them, and options of neighbor discovery.

pub mod ipv6ext_header;
pub mod ipv6hbh;
pub mod ipv6option;
pub mod ndiscoption;
pub mod writing;
