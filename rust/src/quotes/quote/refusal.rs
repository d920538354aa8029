// Made from crates/quote_wire/src/quote/refusal.rt by rust/erase.
//! Why octets hold no quote of a packet.

use super::{FIXED_END, Ipv4Quote, Ipv6Quote};
use crate::quotes::icmpv4_error::is_datagram;
use crate::quotes::icmpv6_error::is_packet_front;
use crate::wirebase::{IPV6_HEADER_LEN, Ipv4Packet, Ipv6Packet};
use core::fmt;

/// Why [`Ipv4Quote::parse`] or [`Ipv6Quote::parse`] refuses octets: the check that fails first.
#[derive(Debug, PartialEq, Eq, Clone, Copy)]
#[non_exhaustive]
pub enum Refusal {
    /// Fewer bytes than the header has: for IPv4 fewer than 20 or than its own length field says, for IPv6 fewer than
    /// 40.
    Short,
    /// The header's version is not 4 or 6 respectively; this is its number.
    Version(u8),
    /// The IPv4 header's own length is below 20; this is that length in bytes.
    Length(u8),
    /// Fewer than 8 bytes follow the IPv4 header (RFC 792).
    Data,
}

impl Ipv4Quote<'_> {
    /// Why [`Ipv4Quote::parse`] refuses these octets, by the check that fails first; None exactly where it reads them.
    pub fn refusal(octets: &[u8]) -> Option<Refusal> {
        if is_datagram(octets) {
            return None;
        }
        Some(why_no_datagram(octets))
    }
}

impl Ipv6Quote<'_> {
    /// Why [`Ipv6Quote::parse`] refuses these octets, by the check that fails first; None exactly where it reads them.
    pub fn refusal(octets: &[u8]) -> Option<Refusal> {
        if is_packet_front(octets) {
            return None;
        }
        Some(why_no_packet(octets))
    }
}

// The check that fails first in octets that are not the start of an IPv4 datagram.
pub(crate) fn why_no_datagram(octets: &[u8]) -> Refusal {
    if octets.len() < FIXED_END {
        return Refusal::Short;
    }
    let packet = Ipv4Packet::new_unchecked(octets);
    let version = packet.version();
    if version != 4 {
        return Refusal::Version(version);
    }
    let header_len = packet.header_len();
    if (header_len as usize) < FIXED_END {
        return Refusal::Length(header_len);
    }
    if octets.len() < header_len as usize {
        return Refusal::Short;
    }
    Refusal::Data
}

// The check that fails first in octets that do not begin with an IPv6 header.
pub(crate) fn why_no_packet(octets: &[u8]) -> Refusal {
    if octets.len() < IPV6_HEADER_LEN {
        return Refusal::Short;
    }
    Refusal::Version(Ipv6Packet::new_unchecked(octets).version())
}

/// The reason as a phrase.
impl fmt::Display for Refusal {
    fn fmt(&self, f: &mut fmt::Formatter<'_>) -> fmt::Result {
        match self {
            Refusal::Short => f.write_str("the quoted header is cut"),
            Refusal::Version(version) => write!(f, "the quoted header is of version {version}"),
            Refusal::Length(len) => {
                write!(f, "the quoted header has {len} bytes by its own length")
            }
            Refusal::Data => f.write_str("fewer than 8 bytes stand behind the quoted header"),
        }
    }
}
