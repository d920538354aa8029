// Made from crates/control_wire/src/icmp.rt by rust/erase.
//! A message of either ICMP.

use crate::icmp4_wire::icmpv4;
use crate::icmp6_wire::icmpv6;

/// A message of ICMP over IPv4 (RFC 792) or over IPv6 (RFC 4443).
#[derive(Debug, PartialEq, Eq, Clone, Copy)]
pub enum Repr<'a> {
    /// A message of ICMP over IPv4.
    Ipv4(icmpv4::Repr<'a>),
    /// A message of ICMP over IPv6.
    Ipv6(icmpv6::Repr<'a>),
}

impl<'a> From<icmpv4::Repr<'a>> for Repr<'a> {
    /// Wraps an ICMPv4 message.
    fn from(message: icmpv4::Repr<'a>) -> Repr<'a> {
        Repr::Ipv4(message)
    }
}

impl<'a> From<icmpv6::Repr<'a>> for Repr<'a> {
    /// Wraps an ICMPv6 message.
    fn from(message: icmpv6::Repr<'a>) -> Repr<'a> {
        Repr::Ipv6(message)
    }
}
