// Made from crates/wirebase/src/ip.rt by rust/erase.
//! The protocols over IP, of both versions.

use crate::wirebase::text::Hex;
use core::fmt;

/// What follows an IP header, one byte: the protocol of IPv4 (RFC 791 section 3.1), the next header of IPv6
/// (RFC 8200 section 3).
#[derive(Debug, PartialEq, Eq, PartialOrd, Ord, Clone, Copy)]
pub enum IpProtocol {
    /// Hop-by-hop options of IPv6 (RFC 8200 section 4.3).
    HopByHop,
    /// Control messages of IPv4 (RFC 792).
    Icmp,
    /// Group management of IPv4 (RFC 2236).
    Igmp,
    /// RFC 9293.
    Tcp,
    /// RFC 768.
    Udp,
    /// A routing header of IPv6 (RFC 8200 section 4.4).
    Ipv6Route,
    /// A fragment of IPv6 (RFC 8200 section 4.5).
    Ipv6Frag,
    /// An encrypted payload (RFC 4303).
    IpSecEsp,
    /// An authentication header (RFC 4302).
    IpSecAh,
    /// Control messages of IPv6 (RFC 4443).
    Icmpv6,
    /// Nothing follows (RFC 8200 section 4.7).
    Ipv6NoNxt,
    /// Destination options of IPv6 (RFC 8200 section 4.6).
    Ipv6Opts,
    /// Any other protocol, by its number.
    Unknown(u8),
}

impl From<u8> for IpProtocol {
    fn from(number: u8) -> IpProtocol {
        protocol_numbered(number)
    }
}

// The protocol of a number.
fn protocol_numbered(number: u8) -> IpProtocol {
    match number {
        0 => IpProtocol::HopByHop,
        1 => IpProtocol::Icmp,
        2 => IpProtocol::Igmp,
        6 => IpProtocol::Tcp,
        17 => IpProtocol::Udp,
        43 => IpProtocol::Ipv6Route,
        44 => IpProtocol::Ipv6Frag,
        50 => IpProtocol::IpSecEsp,
        51 => IpProtocol::IpSecAh,
        58 => IpProtocol::Icmpv6,
        59 => IpProtocol::Ipv6NoNxt,
        60 => IpProtocol::Ipv6Opts,
        other => IpProtocol::Unknown(other),
    }
}

impl From<IpProtocol> for u8 {
    fn from(protocol: IpProtocol) -> u8 {
        match protocol {
            IpProtocol::HopByHop => 0,
            IpProtocol::Icmp => 1,
            IpProtocol::Igmp => 2,
            IpProtocol::Tcp => 6,
            IpProtocol::Udp => 17,
            IpProtocol::Ipv6Route => 43,
            IpProtocol::Ipv6Frag => 44,
            IpProtocol::IpSecEsp => 50,
            IpProtocol::IpSecAh => 51,
            IpProtocol::Icmpv6 => 58,
            IpProtocol::Ipv6NoNxt => 59,
            IpProtocol::Ipv6Opts => 60,
            IpProtocol::Unknown(other) => other,
        }
    }
}

/// The name, as `UDP`, or the number in hexadecimal where there is none, as `0x03`.
impl fmt::Display for IpProtocol {
    fn fmt(&self, f: &mut fmt::Formatter<'_>) -> fmt::Result {
        let words = match *self {
            IpProtocol::HopByHop => "Hop-by-Hop",
            IpProtocol::Icmp => "ICMP",
            IpProtocol::Igmp => "IGMP",
            IpProtocol::Tcp => "TCP",
            IpProtocol::Udp => "UDP",
            IpProtocol::Ipv6Route => "IPv6-Route",
            IpProtocol::Ipv6Frag => "IPv6-Frag",
            IpProtocol::IpSecEsp => "IPsec-ESP",
            IpProtocol::IpSecAh => "IPsec-AH",
            IpProtocol::Icmpv6 => "ICMPv6",
            IpProtocol::Ipv6NoNxt => "IPv6-NoNxt",
            IpProtocol::Ipv6Opts => "IPv6-Opts",
            IpProtocol::Unknown(number) => return write!(f, "0x{}", Hex(&[number])),
        };
        f.write_str(words)
    }
}
