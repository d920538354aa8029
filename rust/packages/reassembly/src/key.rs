// Made from crates/reassembly/src/key.rt by rust/erase.
//! Which datagram a fragment is of.

use control_wire::frames::Addresses;
use control_wire::{IpProtocol, Ipv4Address, Ipv6Address};

/// Which datagram a fragment is of.
#[derive(Debug, PartialEq, Eq, Clone, Copy)]
pub struct Key {
    /// The source and the destination.
    pub addresses: Addresses,
    /// The protocol, by which datagrams of IPv4 are told apart (RFC 791 section 3.2). Those of IPv6 are not (RFC 8200
    /// section 4.5): there it is None.
    pub protocol: Option<IpProtocol>,
    /// The identification.
    pub ident: u32,
}

impl Key {
    // Whether this is that key. No contract says of the derived `==` when addresses are equal, and so here they are
    // compared by their octets.
    pub(crate) fn is(&self, other: &Key) -> bool {
        self.ident == other.ident
            && self.protocol == other.protocol
            && are(&self.addresses, &other.addresses)
    }
}

// Whether these are those addresses.
fn are(addresses: &Addresses, others: &Addresses) -> bool {
    match (*addresses, *others) {
        (Addresses::V4(source, destination), Addresses::V4(other_source, other_destination)) => {
            is_v4(source, other_source) && is_v4(destination, other_destination)
        }
        (Addresses::V6(source, destination), Addresses::V6(other_source, other_destination)) => {
            is_v6(source, other_source) && is_v6(destination, other_destination)
        }
        _ => false,
    }
}

// Whether this is that address.
fn is_v4(address: Ipv4Address, other: Ipv4Address) -> bool {
    Ipv4Address::from_octets(address.octets()) == other
}

fn is_v6(address: Ipv6Address, other: Ipv6Address) -> bool {
    Ipv6Address::from_octets(address.octets()) == other
}
