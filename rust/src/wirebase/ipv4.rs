// Made from crates/wirebase/src/ipv4.rt by rust/erase.
//! IPv4: addresses and the header (RFC 791).

use crate::wirebase::byte_writer::ByteWriter;
use crate::wirebase::capabilities::ChecksumCapabilities;
use crate::wirebase::checksum;
use crate::wirebase::error::{Error, Result};
use crate::wirebase::ip::IpProtocol;
use crate::wirebase::octets::{Octets, OctetsMut};
use crate::wirebase::text::{ToFormatter, put_v4};
use core::fmt;

/// An IPv4 address, four octets: `a.b.c.d` (RFC 791 section 3.2).
// The octets are four fields, so that every contract knows their number.
#[derive(PartialEq, Eq, Clone, Copy)]
pub struct Ipv4Address {
    a: u8,
    b: u8,
    c: u8,
    d: u8,
}

impl Ipv4Address {
    /// No address, 0.0.0.0.
    pub const UNSPECIFIED: Ipv4Address = Ipv4Address {
        a: 0,
        b: 0,
        c: 0,
        d: 0,
    };

    /// The address `a.b.c.d`.
    pub const fn new(a: u8, b: u8, c: u8, d: u8) -> Ipv4Address {
        Ipv4Address::from_octets([a, b, c, d])
    }

    /// The address of these octets, the highest first. Addresses are equal exactly when their octets are.
    pub const fn from_octets(octets: [u8; 4]) -> Ipv4Address {
        let [a, b, c, d] = octets;
        Ipv4Address { a, b, c, d }
    }

    /// The octets, the highest first.
    pub const fn octets(&self) -> [u8; 4] {
        [self.a, self.b, self.c, self.d]
    }

    /// Whether this is 0.0.0.0.
    pub fn is_unspecified(&self) -> bool {
        // As one number: addresses would be compared octet by octet.
        u32::from_be_bytes(self.octets()) == 0
    }

    /// Whether packets to this address go to many receivers: 224.0.0.0 to 239.255.255.255 (RFC 1112 section 4).
    pub const fn is_multicast(&self) -> bool {
        matches!(self.a, 224..=239)
    }
}

impl From<[u8; 4]> for Ipv4Address {
    fn from(octets: [u8; 4]) -> Ipv4Address {
        Ipv4Address::from_octets(octets)
    }
}

/// The unspecified address.
impl Default for Ipv4Address {
    fn default() -> Ipv4Address {
        Ipv4Address::UNSPECIFIED
    }
}

/// The octets in decimal with dots between them, as `10.0.0.1`.
impl fmt::Display for Ipv4Address {
    fn fmt(&self, f: &mut fmt::Formatter<'_>) -> fmt::Result {
        put_v4::<_, ToFormatter>(f, *self, None)
    }
}

// The fields of the header.
mod field {
    use crate::wirebase::octets::Field;

    pub const VERSION: Field = 0..1;

    pub const IHL: Field = 0..1;

    pub const TOTAL_LEN: Field = 2..4;

    pub const IDENT: Field = 4..6;

    // the flags and the fragment offset
    pub const FRAGMENT: Field = 6..8;

    pub const TIME_TO_LIVE: Field = 8..9;

    pub const PROTOCOL: Field = 9..10;

    pub const CHECKSUM: Field = 10..12;

    pub const SRC_ADDR: Field = 12..16;

    pub const DST_ADDR: Field = 16..20;
}

// The bytes of a header without options.
const HEADER_LEN: usize = field::DST_ADDR.end;

// The flags before the fragment offset, which takes the 13 bits below them.
const DONT_FRAG: u16 = 0x4000;

const MORE_FRAGS: u16 = 0x2000;

// Adjacent fields as one number, since each write costs code: version 4, an IHL of 5 and type of service 0; then no
// identification, not to be fragmented, offset 0.
const VERSION_IHL_TOS: u16 = 0x4500;

const IDENT_FLAGS_OFFSET: u32 = DONT_FRAG as u32;

/// A view of the octets of an IPv4 packet, header and payload (RFC 791 section 3.1).
#[derive(Debug, Clone)]
pub struct Ipv4Packet<T: Octets> {
    buffer: T,
}

impl<T: Octets> Ipv4Packet<T> {
    /// Makes a view of `buffer`; its length is not checked.
    pub const fn new_unchecked(buffer: T) -> Ipv4Packet<T> {
        Ipv4Packet { buffer }
    }

    /// Makes a view of `buffer`. Refused where it doesn't begin with a whole packet. On refusal the buffer is dropped:
    /// to keep a `&mut [u8]`, call `new_unchecked` and then `check_len`.
    pub fn new_checked(buffer: T) -> Result<Ipv4Packet<T>> {
        let packet = Ipv4Packet::new_unchecked(buffer);
        packet.check_len()?;
        Ok(packet)
    }

    /// Accepts 20 octets or more that hold the header and the whole packet by the lengths in them, with a header that
    /// is not longer than the packet. Then each accessor may be called. The version is not checked, and the IHL may
    /// count fewer than 20 bytes.
    pub fn check_len(&self) -> Result<()> {
        let len = self.buffer.octets().len();
        if len < HEADER_LEN {
            return Err(Error);
        }
        let header_len = self.header_len() as usize;
        let total_len = self.total_len() as usize;
        if len < header_len || total_len < header_len || len < total_len {
            return Err(Error);
        }
        Ok(())
    }

    /// Returns the buffer of the view.
    pub fn into_inner(self) -> T {
        self.buffer
    }

    /// The version. Requires at least 1 byte.
    ///
    /// # Panics
    ///
    /// May panic where what is asked for above does not hold.
    pub fn version(&self) -> u8 {
        self.buffer.u8_at(field::VERSION) / 16
    }

    /// The bytes of the header, 0 to 60: four for each word of its IHL. Requires at least 1 byte.
    ///
    /// # Panics
    ///
    /// May panic where what is asked for above does not hold.
    pub fn header_len(&self) -> u8 {
        4 * (self.buffer.u8_at(field::IHL) & 0x0f)
    }

    /// The bytes of header and payload. Requires at least 4 bytes.
    ///
    /// # Panics
    ///
    /// May panic where what is asked for above does not hold.
    pub fn total_len(&self) -> u16 {
        self.buffer.u16_at(field::TOTAL_LEN)
    }

    /// The identification that the fragments of one packet share. Requires at least 6 bytes.
    ///
    /// # Panics
    ///
    /// May panic where what is asked for above does not hold.
    pub fn ident(&self) -> u16 {
        self.buffer.u16_at(field::IDENT)
    }

    /// Whether the packet must not be fragmented. Requires at least 8 bytes.
    ///
    /// # Panics
    ///
    /// May panic where what is asked for above does not hold.
    pub fn dont_frag(&self) -> bool {
        self.buffer.u16_at(field::FRAGMENT) / DONT_FRAG % 2 == 1
    }

    /// Whether this is a fragment that others follow. Requires at least 8 bytes.
    ///
    /// # Panics
    ///
    /// May panic where what is asked for above does not hold.
    pub fn more_frags(&self) -> bool {
        self.buffer.u16_at(field::FRAGMENT) / MORE_FRAGS % 2 == 1
    }

    /// The offset of the payload in that of the whole packet, in bytes: a multiple of 8, and 0 where the packet is the
    /// first fragment or is whole. Requires at least 8 bytes.
    ///
    /// # Panics
    ///
    /// May panic where what is asked for above does not hold.
    pub fn frag_offset(&self) -> u16 {
        8 * (self.buffer.u16_at(field::FRAGMENT) % MORE_FRAGS)
    }

    /// The protocol of the payload. Requires at least 10 bytes.
    ///
    /// # Panics
    ///
    /// May panic where what is asked for above does not hold.
    pub fn next_header(&self) -> IpProtocol {
        IpProtocol::from(self.buffer.u8_at(field::PROTOCOL))
    }

    /// The hops that are left: the time to live. Requires at least 9 bytes.
    ///
    /// # Panics
    ///
    /// May panic where what is asked for above does not hold.
    pub fn hop_limit(&self) -> u8 {
        self.buffer.u8_at(field::TIME_TO_LIVE)
    }

    /// The address of the sender. Requires at least 16 bytes.
    ///
    /// # Panics
    ///
    /// May panic where what is asked for above does not hold.
    pub fn src_addr(&self) -> Ipv4Address {
        Ipv4Address::from_octets(self.buffer.field(field::SRC_ADDR).try_into().unwrap())
    }

    /// The address of the receiver. Requires at least 20 bytes.
    ///
    /// # Panics
    ///
    /// May panic where what is asked for above does not hold.
    pub fn dst_addr(&self) -> Ipv4Address {
        Ipv4Address::from_octets(self.buffer.field(field::DST_ADDR).try_into().unwrap())
    }

    /// Whether the header, whose length its IHL gives, carries its checksum. Requires at least 1 byte, and the header.
    ///
    /// # Panics
    ///
    /// May panic where what is asked for above does not hold.
    pub fn verify_checksum(&self) -> bool {
        checksum::is_good(self.buffer.range(0, self.header_len() as usize), 0)
    }
}

impl<'a, B: AsRef<[u8]> + ?Sized> Ipv4Packet<&'a B> {
    /// The payload, for as long as the octets live: the bytes from the header's end to the packet's, by the lengths in
    /// the header. Requires at least 4 bytes, the whole packet, and a header that is not longer than it.
    ///
    /// # Panics
    ///
    /// May panic where what is asked for above does not hold.
    pub fn payload(&self) -> &'a [u8] {
        let octets = self.buffer.as_ref();
        &octets[self.header_len() as usize..self.total_len() as usize]
    }
}

/// Views are equal where their octets are equal.
impl<T: Octets> PartialEq for Ipv4Packet<T> {
    fn eq(&self, other: &Ipv4Packet<T>) -> bool {
        self.buffer.octets() == other.buffer.octets()
    }
}

impl<T: Octets> Eq for Ipv4Packet<T> {}

/// An IPv4 header without options (RFC 791 section 3.1).
#[derive(Debug, PartialEq, Eq, Clone, Copy)]
pub struct Ipv4Repr {
    /// The address that the packet comes from.
    pub src_addr: Ipv4Address,
    /// The address that the packet goes to.
    pub dst_addr: Ipv4Address,
    /// The protocol of the payload.
    pub next_header: IpProtocol,
    /// The bytes of the payload.
    pub payload_len: usize,
    /// The hops that are left.
    pub hop_limit: u8,
}

impl Ipv4Repr {
    /// The bytes that the header takes: 20.
    pub const fn buffer_len(&self) -> usize {
        HEADER_LEN
    }

    /// Writes the header over the front of the octets; the other octets are unchanged. It is a header of version 4 and
    /// 20 bytes, not to be fragmented, with its checksum where `checksum_caps.ipv4` has it computed, and with zeros
    /// there otherwise. Requires at least 20 bytes, and a payload of at most 65,515 bytes.
    ///
    /// # Panics
    ///
    /// May panic where what is asked for above does not hold.
    pub fn emit<T: OctetsMut>(
        &self,
        packet: &mut Ipv4Packet<T>,
        checksum_caps: &ChecksumCapabilities,
    ) {
        self.emit_into(packet.buffer.octets_mut(), checksum_caps);
    }

    /// Like `emit`, but writes into a slice.
    ///
    /// # Panics
    ///
    /// May panic where what is asked for above does not hold.
    pub fn emit_into(&self, octets: &mut [u8], checksum_caps: &ChecksumCapabilities) {
        self.write(&mut octets[..HEADER_LEN], checksum_caps);
    }

    // Writes the header over exactly 20 octets.
    fn write(&self, header: &mut [u8], checksum_caps: &ChecksumCapabilities) {
        self.write_fields(header);
        if checksum_caps.ipv4.tx() {
            checksum::fill(header, field::CHECKSUM, 0);
        }
    }

    // Writes the fields, with a checksum of zero.
    fn write_fields(&self, header: &mut [u8]) {
        let mut w = ByteWriter::new(header);
        w.put_u16(VERSION_IHL_TOS);
        w.put_u16((HEADER_LEN + self.payload_len) as u16);
        w.put_u32(IDENT_FLAGS_OFFSET);
        w.put_u8(self.hop_limit);
        w.put_u8(self.next_header.into());
        w.put_u16(0);
        w.put_bytes(&self.src_addr.octets());
        w.put_bytes(&self.dst_addr.octets());
    }
}
