// Made from crates/wirebase/src/ipv6/refusal.rt by rust/erase.
//! Why octets are refused as a packet of IPv6.

use core::fmt;

/// Why [`Ipv6Repr::parse`](crate::Ipv6Repr::parse) refuses octets: the first check that fails.
#[derive(Debug, PartialEq, Eq, Clone, Copy)]
#[non_exhaustive]
pub enum Ipv6Refusal {
    /// Fewer than the 40 bytes of the header.
    Short,
    /// The octets end before the payload does, by the length in the header.
    Cut,
    /// A version other than 6.
    Version(u8),
}

impl fmt::Display for Ipv6Refusal {
    fn fmt(&self, f: &mut fmt::Formatter<'_>) -> fmt::Result {
        match *self {
            Ipv6Refusal::Short => f.write_str("fewer than 40 bytes"),
            Ipv6Refusal::Cut => f.write_str("the payload is cut"),
            Ipv6Refusal::Version(version) => write!(f, "version {version}, not 6"),
        }
    }
}
