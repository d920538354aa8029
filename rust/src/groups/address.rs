// Made from crates/group_wire/src/address.rt by rust/erase.
//! The addresses of groups and of sources, of IPv4 and of IPv6.

use crate::groups::family::Family;
use crate::wirebase::{ByteWriter, Ipv4Address, Ipv6Address};
use core::fmt;

/// An address, and the protocol of the messages about groups of such addresses: [`Ipv4Address`] and IGMP, or
/// [`Ipv6Address`] and MLD.
pub trait Address: Copy {
    /// The protocol.
    fn family() -> Family;

    /// The bytes of an address: 4 or 16.
    fn width() -> usize {
        Self::family().width()
    }

    /// The address of these octets. Requires as many as an address has.
    ///
    /// # Panics
    ///
    /// May panic where what is asked for above does not hold.
    fn read(octets: &[u8]) -> Self;

    /// Writes the octets. Requires that as many are free.
    ///
    /// # Panics
    ///
    /// May panic where what is asked for above does not hold.
    fn put(&self, w: &mut ByteWriter<'_>);

    /// Prints the address.
    fn show(&self, f: &mut fmt::Formatter<'_>) -> fmt::Result;
}

impl Address for Ipv4Address {
    fn family() -> Family {
        Family::Igmp
    }

    fn read(octets: &[u8]) -> Ipv4Address {
        Ipv4Address::from_octets(octets.try_into().unwrap())
    }

    fn put(&self, w: &mut ByteWriter<'_>) {
        w.put_bytes(&self.octets());
    }

    fn show(&self, f: &mut fmt::Formatter<'_>) -> fmt::Result {
        write!(f, "{self}")
    }
}

impl Address for Ipv6Address {
    fn family() -> Family {
        Family::Mld
    }

    fn read(octets: &[u8]) -> Ipv6Address {
        Ipv6Address::from_octets(octets.try_into().unwrap())
    }

    fn put(&self, w: &mut ByteWriter<'_>) {
        w.put_bytes(&self.octets());
    }

    fn show(&self, f: &mut fmt::Formatter<'_>) -> fmt::Result {
        write!(f, "{self}")
    }
}
