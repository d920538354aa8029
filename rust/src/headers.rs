// Made from crates/header_wire/src/lib.rt by rust/erase.
//! Headers of IPv4 with their options (RFC 791, RFC 2113); messages of ICMPv4 beside echoes and errors (RFC 792,
//! RFC 950, RFC 1256, RFC 8335), and of ICMPv6 (RFC 8335, RFC 4620); read and written with their checksums. Packets of
//! ARP (RFC 826), headers of Ethernet (RFC 894), fragment headers of IPv6 and the parts of a payload for fragments (RFC
//! 8200, RFC 791).

pub mod arp;
pub mod ethernet;
mod extended_echo;
pub mod fragments;
pub mod icmpv4;
pub mod icmpv6;
pub mod ipv4;
pub mod ipv6_fragment;
pub mod options;

pub use fragments::{Fragment, Fragments};
pub use icmpv4::Message;
pub use ipv4::Header;
pub use options::{Ipv4Option, OptionRefusal, Options, ROUTER_ALERT, router_alert};
