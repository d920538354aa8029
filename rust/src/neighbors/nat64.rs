// Made from crates/neighbor_wire/src/nat64.rt by rust/erase.
//! The prefix of a NAT64 (RFC 8781 section 4).

use crate::wirebase::{ByteWriter, Ipv4Address, Ipv6Address};
use core::fmt;

/// The number of bits of a NAT64 prefix, by its code (RFC 8781 section 4, RFC 6052 section 2.2).
#[derive(Debug, PartialEq, Eq, Clone, Copy)]
pub enum Nat64Length {
    /// 96 bits, code 0.
    Bits96,
    /// 64 bits, code 1.
    Bits64,
    /// 56 bits, code 2.
    Bits56,
    /// 48 bits, code 3.
    Bits48,
    /// 40 bits, code 4.
    Bits40,
    /// 32 bits, code 5.
    Bits32,
}

impl Nat64Length {
    /// The number of bits.
    pub fn bits(self) -> u8 {
        match self {
            Nat64Length::Bits96 => 96,
            Nat64Length::Bits64 => 64,
            Nat64Length::Bits56 => 56,
            Nat64Length::Bits48 => 48,
            Nat64Length::Bits40 => 40,
            Nat64Length::Bits32 => 32,
        }
    }

    // The code.
    pub(crate) fn code(self) -> u8 {
        match self {
            Nat64Length::Bits96 => 0,
            Nat64Length::Bits64 => 1,
            Nat64Length::Bits56 => 2,
            Nat64Length::Bits48 => 3,
            Nat64Length::Bits40 => 4,
            Nat64Length::Bits32 => 5,
        }
    }

    // The length of this code; None where none has it.
    pub(crate) fn of(code: u8) -> Option<Nat64Length> {
        match code {
            0 => Some(Nat64Length::Bits96),
            1 => Some(Nat64Length::Bits64),
            2 => Some(Nat64Length::Bits56),
            3 => Some(Nat64Length::Bits48),
            4 => Some(Nat64Length::Bits40),
            5 => Some(Nat64Length::Bits32),
            _ => None,
        }
    }
}

/// The prefix by which a NAT64 makes addresses of IPv6 of those of IPv4.
#[derive(Debug, PartialEq, Eq, Clone, Copy)]
pub struct Nat64Prefix<'a> {
    /// How long the prefix is valid, in units of 8 seconds; below 8192.
    pub scaled_lifetime: u16,
    /// The number of bits of the prefix.
    pub length: Nat64Length,
    /// The first 12 octets of the addresses, zero behind the prefix.
    pub prefix: &'a [u8],
}

impl Nat64Prefix<'_> {
    /// How long the prefix is valid, in seconds.
    pub fn lifetime(&self) -> u32 {
        8 * self.scaled_lifetime as u32
    }

    /// The address of IPv6 that stands for an address of IPv4 (RFC 6052 section 2.2). Requires the 12 octets of a
    /// prefix.
    ///
    /// # Panics
    ///
    /// May panic where what is asked for above does not hold.
    pub fn address_of(&self, address: Ipv4Address) -> Ipv6Address {
        let mut octets = [0; 16];
        write_address(&mut octets, self.length, self.prefix, &address.octets());
        Ipv6Address::from_octets(octets)
    }
}

// Writes the address that a prefix and the octets of an address of IPv4 make.
fn write_address(address: &mut [u8], bits: Nat64Length, prefix: &[u8], octets: &[u8]) {
    let mut w = ByteWriter::new(address);
    put_address(&mut w, bits, prefix, octets);
}

// Writes the fields of that address.
fn put_address(w: &mut ByteWriter<'_>, bits: Nat64Length, prefix: &[u8], octets: &[u8]) {
    match bits {
        Nat64Length::Bits96 => {
            w.put_bytes(prefix);
            w.put_bytes(octets);
        }
        Nat64Length::Bits64 => put_split(w, 8, prefix, octets),
        Nat64Length::Bits56 => put_split(w, 7, prefix, octets),
        Nat64Length::Bits48 => put_split(w, 6, prefix, octets),
        Nat64Length::Bits40 => put_split(w, 5, prefix, octets),
        Nat64Length::Bits32 => put_split(w, 4, prefix, octets),
    }
}

// Writes a prefix of so many octets and an address of IPv4, around the zero at place 8, and zeros behind them.
fn put_split(w: &mut ByteWriter<'_>, whole: usize, prefix: &[u8], octets: &[u8]) {
    let before = 8 - whole;
    w.put_bytes(&prefix[..whole]);
    w.put_bytes(&octets[..before]);
    w.put_u8(0);
    w.put_bytes(&octets[before..]);
    w.put_zeros(11 - whole);
}

// The address that the octets begin, with zeros behind them.
pub(crate) fn address_from(front: &[u8]) -> Ipv6Address {
    let mut octets = [0; 16];
    write_front(&mut octets, front);
    Ipv6Address::from_octets(octets)
}

// Writes the first of the octets, as many as there is room for.
fn write_front(octets: &mut [u8], front: &[u8]) {
    let mut w = ByteWriter::new(octets);
    w.put_front(front);
}

/// Prints the prefix with its length and its lifetime in seconds, as `NAT64 prefix 64:ff9b::/96 lifetime=1800`.
impl fmt::Display for Nat64Prefix<'_> {
    fn fmt(&self, f: &mut fmt::Formatter<'_>) -> fmt::Result {
        let prefix = address_from(self.prefix);
        let bits = self.length.bits();
        let lifetime = self.lifetime();
        write!(f, "NAT64 prefix {prefix}/{bits} lifetime={lifetime}")
    }
}
