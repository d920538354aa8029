// Made from crates/extension_wire/src/family.rt by rust/erase.
//! The two versions of ICMP, and what differs between their extensions.

/// The version of ICMP.
#[derive(Debug, PartialEq, Eq, Clone, Copy)]
pub enum Family {
    /// ICMPv4: the length of the original datagram is byte 5 of the message, in 32 bit words (RFC 4884 section 4.1).
    V4,
    /// ICMPv6: it is byte 4, in 64 bit words (RFC 4884 section 4.4).
    V6,
}

impl Family {
    /// The bytes of a word that the length counts: 4 or 8.
    pub fn unit(self) -> usize {
        match self {
            Family::V4 => 4,
            Family::V6 => 8,
        }
    }

    // The bytes of an address: 4 or 16.
    pub(crate) fn width(self) -> usize {
        match self {
            Family::V4 => 4,
            Family::V6 => 16,
        }
    }

    // The number of its addresses, by IANA's registry of address families.
    pub(crate) fn number(self) -> u16 {
        match self {
            Family::V4 => 1,
            Family::V6 => 2,
        }
    }
}
