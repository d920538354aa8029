// Made from crates/wirebase/src/ipv6.rt by rust/erase.
//! IPv6: addresses (RFC 4291) and the header (RFC 8200).

use crate::wirebase::byte_writer::ByteWriter;
use crate::wirebase::error::{Error, Result};
use crate::wirebase::ip::IpProtocol;
use crate::wirebase::octets::{Octets, OctetsMut};
use core::fmt;

mod address;
mod refusal;

pub use address::{IPV6_LINK_LOCAL_ALL_NODES, IPV6_LINK_LOCAL_ALL_ROUTERS, Ipv6Address};
pub use refusal::Ipv6Refusal;

/// The bytes of a header.
pub const IPV6_HEADER_LEN: usize = field::DST_ADDR.end;

/// The bytes of a packet that every link can carry whole (RFC 8200 section 5).
pub const IPV6_MIN_MTU: usize = 1280;

// The fields of the header (RFC 8200 section 3).
mod field {
    use crate::wirebase::octets::Field;

    pub const VERSION: Field = 0..1;

    pub const PAYLOAD_LEN: Field = 4..6;

    pub const NEXT_HEADER: Field = 6..7;

    pub const HOP_LIMIT: Field = 7..8;

    pub const SRC_ADDR: Field = 8..24;

    pub const DST_ADDR: Field = 24..40;
}

/// A view of the octets of an IPv6 packet, header and payload (RFC 8200 section 3).
#[derive(Debug, Clone)]
pub struct Ipv6Packet<T: Octets> {
    buffer: T,
}

impl<T: Octets> Ipv6Packet<T> {
    /// Makes a view of `buffer`; its length is not checked.
    pub const fn new_unchecked(buffer: T) -> Ipv6Packet<T> {
        Ipv6Packet { buffer }
    }

    /// Makes a view of `buffer`. Refused where it doesn't begin with a whole packet. On refusal the buffer is dropped:
    /// to keep a `&mut [u8]`, call `new_unchecked` and then `check_len`.
    pub fn new_checked(buffer: T) -> Result<Ipv6Packet<T>> {
        let packet = Ipv6Packet::new_unchecked(buffer);
        packet.check_len()?;
        Ok(packet)
    }

    /// Accepts octets that hold the header, 40 bytes, and the whole payload by the length in it. Then each accessor may
    /// be called. The version is not checked.
    pub fn check_len(&self) -> Result<()> {
        let len = self.buffer.octets().len();
        if len < IPV6_HEADER_LEN || len < IPV6_HEADER_LEN + self.payload_len() as usize {
            return Err(Error);
        }
        Ok(())
    }

    /// Returns the buffer of the view.
    pub fn into_inner(self) -> T {
        self.buffer
    }

    /// The octets.
    pub fn as_ref(&self) -> &[u8] {
        self.buffer.octets()
    }

    /// The version. Requires at least 1 byte.
    ///
    /// # Panics
    ///
    /// May panic where what is asked for above does not hold.
    pub fn version(&self) -> u8 {
        self.buffer.u8_at(field::VERSION) / 16
    }

    /// The bytes of the header: 40.
    pub fn header_len(&self) -> usize {
        IPV6_HEADER_LEN
    }

    /// The bytes of the payload. Requires at least 6 bytes.
    ///
    /// # Panics
    ///
    /// May panic where what is asked for above does not hold.
    pub fn payload_len(&self) -> u16 {
        self.buffer.u16_at(field::PAYLOAD_LEN)
    }

    /// The protocol of the payload. Requires at least 7 bytes.
    ///
    /// # Panics
    ///
    /// May panic where what is asked for above does not hold.
    pub fn next_header(&self) -> IpProtocol {
        IpProtocol::from(self.buffer.u8_at(field::NEXT_HEADER))
    }

    /// The hops that are left. Requires at least 8 bytes.
    ///
    /// # Panics
    ///
    /// May panic where what is asked for above does not hold.
    pub fn hop_limit(&self) -> u8 {
        self.buffer.u8_at(field::HOP_LIMIT)
    }

    /// The address of the sender. Requires at least 24 bytes.
    ///
    /// # Panics
    ///
    /// May panic where what is asked for above does not hold.
    pub fn src_addr(&self) -> Ipv6Address {
        Ipv6Address::from_octets(self.buffer.field(field::SRC_ADDR).try_into().unwrap())
    }

    /// The address of the receiver. Requires at least 40 bytes.
    ///
    /// # Panics
    ///
    /// May panic where what is asked for above does not hold.
    pub fn dst_addr(&self) -> Ipv6Address {
        Ipv6Address::from_octets(self.buffer.field(field::DST_ADDR).try_into().unwrap())
    }
}

impl<'a, B: AsRef<[u8]> + ?Sized> Ipv6Packet<&'a B> {
    /// The payload, for as long as the octets live. Requires the header and the bytes that it counts.
    ///
    /// # Panics
    ///
    /// May panic where what is asked for above does not hold.
    pub fn payload(&self) -> &'a [u8] {
        let octets = self.buffer.as_ref();
        &octets[IPV6_HEADER_LEN..IPV6_HEADER_LEN + self.payload_len() as usize]
    }
}

impl<T: OctetsMut> Ipv6Packet<T> {
    /// Lends the payload for writing; the other octets are unchanged. Requires the header and the bytes that it counts.
    ///
    /// # Panics
    ///
    /// May panic where what is asked for above does not hold.
    pub fn payload_mut(&mut self) -> &mut [u8] {
        let end = IPV6_HEADER_LEN + self.payload_len() as usize;
        self.buffer.range_mut(IPV6_HEADER_LEN, end)
    }
}

/// Views are equal where their octets are equal.
impl<T: Octets> PartialEq for Ipv6Packet<T> {
    fn eq(&self, other: &Ipv6Packet<T>) -> bool {
        self.buffer.octets() == other.buffer.octets()
    }
}

impl<T: Octets> Eq for Ipv6Packet<T> {}

/// An IPv6 header (RFC 8200 section 3).
#[derive(Debug, PartialEq, Eq, Clone, Copy)]
pub struct Ipv6Repr {
    /// The address that the packet comes from.
    pub src_addr: Ipv6Address,
    /// The address that the packet goes to.
    pub dst_addr: Ipv6Address,
    /// The protocol of the payload.
    pub next_header: IpProtocol,
    /// The bytes of the payload.
    pub payload_len: usize,
    /// The hops that are left.
    pub hop_limit: u8,
}

impl Ipv6Repr {
    /// The header at the front of the octets. Refused where they don't hold it and its payload, and where the version
    /// is not 6.
    pub fn parse<B: AsRef<[u8]> + ?Sized>(packet: &Ipv6Packet<&B>) -> Result<Ipv6Repr> {
        packet.check_len()?;
        if packet.version() != 6 {
            return Err(Error);
        }
        Ok(Ipv6Repr {
            src_addr: packet.src_addr(),
            dst_addr: packet.dst_addr(),
            next_header: packet.next_header(),
            payload_len: packet.payload_len() as usize,
            hop_limit: packet.hop_limit(),
        })
    }

    /// Why [`Ipv6Repr::parse`] refuses these octets, by the first check that fails; None where it reads them.
    pub fn refusal<B: AsRef<[u8]> + ?Sized>(packet: &Ipv6Packet<&B>) -> Option<Ipv6Refusal> {
        if packet.buffer.as_ref().len() < IPV6_HEADER_LEN {
            return Some(Ipv6Refusal::Short);
        }
        if packet.check_len().is_err() {
            return Some(Ipv6Refusal::Cut);
        }
        let version = packet.version();
        if version != 6 {
            return Some(Ipv6Refusal::Version(version));
        }
        None
    }

    /// The bytes that the header takes: 40.
    pub const fn buffer_len(&self) -> usize {
        IPV6_HEADER_LEN
    }

    /// Writes the header over the front of the octets; the other octets are unchanged. It is a header of version 6 with
    /// no traffic class and no flow label. Requires at least 40 bytes, and a payload of at most 65,535 bytes.
    ///
    /// # Panics
    ///
    /// May panic where what is asked for above does not hold.
    pub fn emit<T: OctetsMut>(&self, packet: &mut Ipv6Packet<T>) {
        self.emit_into(packet.buffer.octets_mut());
    }

    /// Like `emit`, but writes into a slice.
    ///
    /// # Panics
    ///
    /// May panic where what is asked for above does not hold.
    pub fn emit_into(&self, octets: &mut [u8]) {
        let mut w = ByteWriter::new(octets);
        self.put(&mut w);
    }

    // Writes the fields.
    fn put(&self, w: &mut ByteWriter<'_>) {
        w.put_u32(0x6000_0000);
        w.put_u16(self.payload_len as u16);
        w.put_u8(self.next_header.into());
        w.put_u8(self.hop_limit);
        w.put_bytes(&self.src_addr.octets());
        w.put_bytes(&self.dst_addr.octets());
    }
}

/// The addresses, the number of the next header and the hops, as
/// `IPv6 src=fe80::1 dst=fe80::2 nxt_hdr=17 hop_limit=64`.
impl fmt::Display for Ipv6Repr {
    fn fmt(&self, f: &mut fmt::Formatter<'_>) -> fmt::Result {
        let number = u8::from(self.next_header);
        write!(
            f,
            "IPv6 src={} dst={} nxt_hdr={number} hop_limit={}",
            self.src_addr, self.dst_addr, self.hop_limit
        )
    }
}
