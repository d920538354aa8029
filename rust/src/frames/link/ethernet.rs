// Made from crates/frame_wire/src/link/ethernet.rt by rust/erase.
//! The header of a frame of Ethernet.

use super::Link;
use crate::wirebase::{EthernetAddress, Octets};

// The bytes of the two addresses and the type.
const HEADER_LEN: usize = 14;

/// The header of a frame of Ethernet (IEEE 802.3 clause 3.1.1).
///
/// ```
/// use control_wire::EthernetAddress;
/// use control_wire::frames::Link;
///
/// let octets = [2, 0, 0, 0, 0, 2, 2, 0, 0, 0, 0, 1, 0x08, 0x00, 0x45];
/// let header = Link::Ethernet.ethernet(&octets).unwrap();
/// assert_eq!(header.source, EthernetAddress([2, 0, 0, 0, 0, 1]));
/// assert_eq!(header.destination, EthernetAddress([2, 0, 0, 0, 0, 2]));
/// assert_eq!(header.kind, 0x0800);
/// ```
#[derive(Debug, PartialEq, Eq, Clone, Copy)]
pub struct EthernetHeader {
    /// The destination.
    pub destination: EthernetAddress,
    /// The source.
    pub source: EthernetAddress,
    /// The number after the addresses. From 1,536 on it is an EtherType: that of the payload, or that of the outermost
    /// VLAN tag where the frame has tags. Up to 1,500 it is the length of a frame of IEEE 802.3, in bytes.
    pub kind: u16,
}

impl Link {
    /// The Ethernet header of a frame, which has 14 bytes. None where the link is another one, and where the octets are
    /// fewer; what follows the header is not looked at.
    pub fn ethernet(self, octets: &[u8]) -> Option<EthernetHeader> {
        if self != Link::Ethernet || octets.len() < HEADER_LEN {
            return None;
        }
        Some(EthernetHeader {
            destination: EthernetAddress::from_bytes(octets.range(0, 6)),
            source: EthernetAddress::from_bytes(octets.range(6, 12)),
            kind: octets.u16_at(12..14),
        })
    }
}
