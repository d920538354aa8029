// Made from crates/frame_wire/src/udp/repr.rt by rust/erase.
//! The ports of UDP datagrams, read and written with their payloads and checksums (RFC 768).

use super::{HEADER_LEN, Refusal, UdpPacket, field};
use crate::frames::datagram::Addresses;
use crate::wirebase::{
    ByteWriter, ChecksumCapabilities, Error, IpProtocol, Octets, Result, checksum,
};
use byteorder::{BigEndian, ByteOrder};

/// The ports of a datagram.
#[derive(Debug, PartialEq, Eq, Clone, Copy)]
pub struct UdpRepr {
    /// The source port, or 0 for none.
    pub src_port: u16,
    /// The destination port, which is not 0.
    pub dst_port: u16,
}

impl UdpRepr {
    /// The ports of the datagram at the start of the octets. Refused where it is not whole, where its destination port
    /// is 0, and where `checksum_caps.udp` has the checksum verified and it is wrong. A checksum of 0 means that there
    /// is none: where checksums are verified, IPv4 allows that (RFC 768), and IPv6 does not (RFC 8200 section 8.1).
    pub fn parse<B: AsRef<[u8]> + ?Sized>(
        packet: &UdpPacket<&B>,
        addresses: &Addresses,
        checksum_caps: &ChecksumCapabilities,
    ) -> Result<UdpRepr> {
        UdpRepr::read(packet, addresses, checksum_caps)
    }

    // The ports of the datagram at the start of the octets.
    fn read<B: AsRef<[u8]> + ?Sized>(
        packet: &UdpPacket<&B>,
        addresses: &Addresses,
        checksum_caps: &ChecksumCapabilities,
    ) -> Result<UdpRepr> {
        packet.check_len()?;
        let dst_port = packet.dst_port();
        if dst_port == 0 {
            return Err(Error);
        }
        if checksum_caps.udp.rx() && !has_checksum(packet, addresses) {
            return Err(Error);
        }
        Ok(UdpRepr {
            src_port: packet.src_port(),
            dst_port,
        })
    }

    /// Why [`UdpRepr::parse`] refuses these octets, by the check that fails first; None where it reads them.
    pub fn refusal<B: AsRef<[u8]> + ?Sized>(
        packet: &UdpPacket<&B>,
        addresses: &Addresses,
        checksum_caps: &ChecksumCapabilities,
    ) -> Option<Refusal> {
        if let Some(refusal) = packet.refusal() {
            return Some(refusal);
        }
        if packet.dst_port() == 0 {
            return Some(Refusal::Port);
        }
        if !checksum_caps.udp.rx() {
            return None;
        }
        if has_checksum(packet, addresses) {
            return None;
        }
        if packet.checksum() == 0 {
            return Some(Refusal::NoChecksum);
        }
        Some(Refusal::Checksum)
    }

    /// The ports of the datagram at the start of the octets, as [`UdpRepr::parse`] reads them, or else why it refuses
    /// them, as [`UdpRepr::refusal`] tells it: the check that fails first.
    pub fn parse_or_refusal<B: AsRef<[u8]> + ?Sized>(
        packet: &UdpPacket<&B>,
        addresses: &Addresses,
        checksum_caps: &ChecksumCapabilities,
    ) -> core::result::Result<UdpRepr, Refusal> {
        match UdpRepr::parse(packet, addresses, checksum_caps) {
            Ok(repr) => Ok(repr),
            Err(_) => Err(UdpRepr::refusal(packet, addresses, checksum_caps).unwrap()),
        }
    }

    /// Writes the datagram of this payload at the start of the octets, with its checksum where `checksum_caps.udp` has
    /// it computed, and else with 0 for none, which no receiver accepts over IPv6; what follows it is kept. A checksum
    /// of 0 is written as 0xffff, which is the same sum (RFC 768). Requires that the octets have room for 8 bytes and
    /// the payload, and that these are at most 65,535 bytes.
    ///
    /// ```
    /// use control_wire::frames::{Addresses, UdpRepr};
    /// use control_wire::{ChecksumCapabilities, Ipv4Address};
    ///
    /// // Three bytes to the port of DNS.
    /// let ports = UdpRepr { src_port: 49_152, dst_port: 53 };
    /// let addresses = Addresses::V4(Ipv4Address::new(192, 0, 2, 1), Ipv4Address::new(192, 0, 2, 53));
    /// let mut octets = [0; 11];
    /// ports.emit_into(&[0x12, 0x34, 0x01], &addresses, &mut octets, &ChecksumCapabilities::default());
    /// assert_eq!(octets, [0xc0, 0, 0, 53, 0, 11, 0xa8, 0x37, 0x12, 0x34, 0x01]);
    /// ```
    ///
    /// # Panics
    ///
    /// May panic where what is asked for above does not hold.
    pub fn emit_into(
        &self,
        payload: &[u8],
        addresses: &Addresses,
        octets: &mut [u8],
        checksum_caps: &ChecksumCapabilities,
    ) {
        self.write(payload, octets);
        if checksum_caps.udp.tx() {
            seal(&mut octets[..HEADER_LEN + payload.len()], addresses);
        }
    }

    // Writes the fields of the datagram, with a checksum of zero.
    fn write(&self, payload: &[u8], octets: &mut [u8]) {
        let mut w = ByteWriter::new(octets);
        w.put_u16(self.src_port);
        w.put_u16(self.dst_port);
        w.put_u16((HEADER_LEN + payload.len()) as u16);
        w.put_u16(0);
        w.put_bytes(payload);
    }

    /// The bytes of the header: 8.
    pub const fn header_len(&self) -> usize {
        HEADER_LEN
    }
}

// Writes the checksum of a datagram that is all the octets.
fn seal(octets: &mut [u8], addresses: &Addresses) {
    let sum = addresses.sum_before(IpProtocol::Udp, octets.len() as u32);
    checksum::fill(octets, field::CHECKSUM, sum);
    if octets.u16_at(field::CHECKSUM) == 0 {
        BigEndian::write_u16(&mut octets[field::CHECKSUM], 0xffff);
    }
}

// Whether the datagram has its checksum, or needs none.
fn has_checksum<B: AsRef<[u8]> + ?Sized>(packet: &UdpPacket<&B>, addresses: &Addresses) -> bool {
    if packet.checksum() == 0 {
        return addresses.is_v4();
    }
    packet.verify_checksum(addresses)
}
