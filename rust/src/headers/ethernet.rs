// Made from crates/header_wire/src/ethernet.rt by rust/erase.
//! The header of a frame of Ethernet (RFC 894), and the hardware addresses of multicast groups (RFC 1112, RFC 2464).

mod display;

use crate::wirebase::{ByteWriter, EthernetAddress, Ipv4Address, Ipv6Address, Octets};

mod field {
    use crate::wirebase::Field;

    pub const DST_ADDR: Field = 0..6;

    pub const SRC_ADDR: Field = 6..12;

    pub const ETHER_TYPE: Field = 12..14;
}

/// The bytes of a header. What a frame has behind it is padded with zeros to 46 bytes (RFC 894).
pub const LEN: usize = field::ETHER_TYPE.end;

/// The EtherType of IPv4 (RFC 894).
pub const IPV4: u16 = 0x0800;

/// The EtherType of ARP (RFC 9542).
pub const ARP: u16 = 0x0806;

/// The EtherType of IPv6 (RFC 2464 section 3).
pub const IPV6: u16 = 0x86dd;

/// Why octets are refused as a frame.
#[derive(Debug, PartialEq, Eq, Clone, Copy)]
#[non_exhaustive]
pub enum Refusal {
    /// Fewer than 14 bytes.
    Short,
}

/// The header of a frame. What may stand between it and a packet, as VLAN tags, is not read here.
///
/// ```
/// use control_wire::{EthernetAddress, Ipv4Address};
/// use control_wire::headers::ethernet::{self, Header, multicast_v4};
///
/// let header = Header {
///     src_addr: EthernetAddress([2, 0, 0, 0, 0, 1]),
///     dst_addr: multicast_v4(Ipv4Address::new(224, 0, 0, 251)),
///     ether_type: ethernet::IPV4,
/// };
/// let mut octets = [0; 60];
/// header.emit_into(&mut octets);
/// assert_eq!(octets[..6], [0x01, 0x00, 0x5e, 0, 0, 251]);
/// assert_eq!(Header::parse(&octets), Ok((header, &[0; 46][..])));
/// ```
#[derive(Debug, PartialEq, Eq, Clone, Copy)]
pub struct Header {
    /// The address that the frame comes from.
    pub src_addr: EthernetAddress,
    /// The address that the frame goes to.
    pub dst_addr: EthernetAddress,
    /// The EtherType, which says what the payload is: 0x0600 or more. A number of at most 1,500 is the length of the
    /// payload (IEEE 802.3), and those between are neither; any is read and written as it is.
    pub ether_type: u16,
}

impl Header {
    /// The header that these octets begin with, and the payload: all that follows it, its padding and a check sequence
    /// too.
    pub fn parse(octets: &[u8]) -> Result<(Header, &[u8]), Refusal> {
        read(octets)
    }

    /// The bytes that the header takes: 14.
    pub fn buffer_len(&self) -> usize {
        LEN
    }

    /// Writes the header over the front of the octets; the other octets are unchanged. Requires at least 14 bytes.
    ///
    /// # Panics
    ///
    /// May panic where what is asked for above does not hold.
    pub fn emit_into(&self, octets: &mut [u8]) {
        self.write(octets);
    }

    // Writes the fields.
    fn write(&self, octets: &mut [u8]) {
        let mut w = ByteWriter::new(octets);
        w.put_bytes(self.dst_addr.as_bytes());
        w.put_bytes(self.src_addr.as_bytes());
        w.put_u16(self.ether_type);
    }
}

// The header that these octets begin with, and the payload.
fn read(octets: &[u8]) -> Result<(Header, &[u8]), Refusal> {
    if octets.len() < LEN {
        return Err(Refusal::Short);
    }
    let header = Header {
        src_addr: EthernetAddress::from_bytes(octets.field(field::SRC_ADDR)),
        dst_addr: EthernetAddress::from_bytes(octets.field(field::DST_ADDR)),
        ether_type: octets.u16_at(field::ETHER_TYPE),
    };
    Ok((header, &octets[LEN..]))
}

/// The hardware address of a multicast group of IPv4: 01:00:5e, and the lower 23 bits of the group's address (RFC 1112
/// section 6.4). Of an address that is no group this is nobody's; broadcasts go to ff:ff:ff:ff:ff:ff.
pub fn multicast_v4(group: Ipv4Address) -> EthernetAddress {
    let [_, b, c, d] = group.octets();
    EthernetAddress([0x01, 0x00, 0x5e, b % 128, c, d])
}

/// The hardware address of a multicast group of IPv6: 33:33, and the last four octets of the group's address (RFC 2464
/// section 7). Of an address that is no group this is nobody's.
pub fn multicast_v6(group: Ipv6Address) -> EthernetAddress {
    let octets = group.octets();
    EthernetAddress([0x33, 0x33, octets[12], octets[13], octets[14], octets[15]])
}
