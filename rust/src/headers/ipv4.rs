// Made from crates/header_wire/src/ipv4.rt by rust/erase.
//! The header of IPv4 with its options (RFC 791 section 3.1).

mod display;

use crate::wirebase::{ByteWriter, Field, IpProtocol, Ipv4Address, Ipv4Packet, Octets, checksum};

/// The bytes of a header without options.
pub const FIXED_LEN: usize = 20;

/// The bytes of options that a header has at most.
pub const MAX_OPTIONS_LEN: usize = 40;

// Where the service and the checksum are; wirebase reads the other fields.
const SERVICE: usize = 1;

const CHECKSUM: Field = 10..12;

const VERSION: u8 = 4;

// The first byte of a header without options: version 4, and five words.
const VERSION_IHL: u8 = 0x45;

// The flags before the fragment offset, which takes the 13 bits below them.
const DONT_FRAG: u16 = 0x4000;

const MORE_FRAGS: u16 = 0x2000;

/// Why octets are refused as a packet of IPv4: the first check that fails.
#[derive(Debug, PartialEq, Eq, Clone, Copy)]
#[non_exhaustive]
pub enum Refusal {
    /// Fewer than 20 bytes.
    Short,
    /// The version is not 4; this is its number.
    Version(u8),
    /// The header length is below 20 bytes; this is the length in bytes.
    HeaderLen(u8),
    /// The header goes on past the octets; this is its length in bytes.
    HeaderCut(u8),
    /// The total length is below the header length; this is the total length in bytes.
    TotalLen(u16),
    /// The packet goes on past the octets; this is its total length in bytes.
    Cut(u16),
    /// The checksum of the header is wrong.
    Checksum,
}

/// The header of a packet of IPv4.
///
/// ```
/// use control_wire::{IpProtocol, Ipv4Address};
/// use control_wire::headers::{Header, ROUTER_ALERT};
///
/// // Before the 8 bytes of a query of IGMP.
/// let header = Header {
///     service: 0xc0,
///     ident: 0,
///     dont_frag: true,
///     more_frags: false,
///     frag_offset: 0,
///     hop_limit: 1,
///     protocol: IpProtocol::Igmp,
///     src_addr: Ipv4Address::new(192, 168, 1, 1),
///     dst_addr: Ipv4Address::new(224, 0, 0, 1),
///     options: &ROUTER_ALERT,
///     payload_len: 8,
/// };
/// let mut octets = [0; 32];
/// header.emit_into(&mut octets);
/// assert_eq!(octets[..4], [0x46, 0xc0, 0, 32]);
/// assert_eq!(octets[10..12], [0x42, 0x6d]);
/// assert_eq!(Header::parse(&octets), Ok((header, &[0; 8][..])));
/// ```
#[derive(Debug, PartialEq, Eq, Clone, Copy)]
pub struct Header<'a> {
    /// The type of service: the differentiated services code point in the upper 6 bits (RFC 2474), and explicit
    /// congestion notification in the lower 2 (RFC 3168).
    pub service: u8,
    /// The identification, which the fragments of one packet share.
    pub ident: u16,
    /// The packet must not be fragmented.
    pub dont_frag: bool,
    /// Other fragments follow this one.
    pub more_frags: bool,
    /// The offset of the payload in that of the unfragmented packet, in units of 8 octets: below 8192.
    pub frag_offset: u16,
    /// The hops that are left: the time to live.
    pub hop_limit: u8,
    /// The protocol of the payload.
    pub protocol: IpProtocol,
    /// The address that the packet comes from.
    pub src_addr: Ipv4Address,
    /// The address that the packet goes to.
    pub dst_addr: Ipv4Address,
    /// The octets of the options, with their padding: a multiple of 4 octets, at most 40.
    pub options: &'a [u8],
    /// The bytes of the payload.
    pub payload_len: usize,
}

impl<'a> Header<'a> {
    /// The header of the packet that these octets begin with, and its payload; what follows the packet is ignored. The
    /// checksum of the header is verified. The reserved flag is not looked at.
    pub fn parse(octets: &'a [u8]) -> Result<(Header<'a>, &'a [u8]), Refusal> {
        if let Some(refusal) = failure(octets) {
            return Err(refusal);
        }
        let packet = Ipv4Packet::new_unchecked(octets);
        Ok((read(octets), packet.payload()))
    }

    /// The bytes that the header takes: 20 to 60.
    pub const fn buffer_len(&self) -> usize {
        FIXED_LEN + self.options.len()
    }

    /// Writes the header over the front of the octets, with its checksum; the other octets are unchanged. The reserved
    /// flag is zero. Requires at least `buffer_len` bytes, options of at most 40 bytes that fill words of four, a
    /// fragment offset below 8192, and at most 65,535 bytes of header and payload.
    ///
    /// # Panics
    ///
    /// May panic where what is asked for above does not hold.
    pub fn emit_into(&self, octets: &mut [u8]) {
        self.write(&mut octets[..self.buffer_len()]);
    }

    // Writes the header over exactly as many octets.
    fn write(&self, header: &mut [u8]) {
        self.write_fields(header);
        checksum::fill(header, CHECKSUM, 0);
    }

    // Writes the fields, with a checksum of zero.
    fn write_fields(&self, header: &mut [u8]) {
        let words = (self.options.len() / 4) as u8;
        let mut w = ByteWriter::new(header);
        w.put_u8(VERSION_IHL + words);
        w.put_u8(self.service);
        w.put_u16((self.buffer_len() + self.payload_len) as u16);
        w.put_u16(self.ident);
        w.put_u16(self.fragment_word());
        w.put_u8(self.hop_limit);
        w.put_u8(self.protocol.into());
        w.put_u16(0);
        w.put_bytes(&self.src_addr.octets());
        w.put_bytes(&self.dst_addr.octets());
        w.put_bytes(self.options);
    }

    // The flags and the fragment offset.
    fn fragment_word(&self) -> u16 {
        flags_word(self.dont_frag, self.more_frags) + self.frag_offset
    }
}

// The flags.
fn flags_word(dont_frag: bool, more_frags: bool) -> u16 {
    match (dont_frag, more_frags) {
        (false, false) => 0,
        (false, true) => MORE_FRAGS,
        (true, false) => DONT_FRAG,
        (true, true) => DONT_FRAG + MORE_FRAGS,
    }
}

// Why these octets are refused; None where they begin with a packet.
fn failure(octets: &[u8]) -> Option<Refusal> {
    if octets.len() < FIXED_LEN {
        return Some(Refusal::Short);
    }
    let packet = Ipv4Packet::new_unchecked(octets);
    let version = packet.version();
    if version != VERSION {
        return Some(Refusal::Version(version));
    }
    let header_len = packet.header_len();
    if (header_len as usize) < FIXED_LEN {
        return Some(Refusal::HeaderLen(header_len));
    }
    if octets.len() < header_len as usize {
        return Some(Refusal::HeaderCut(header_len));
    }
    let total_len = packet.total_len();
    if total_len < header_len as u16 {
        return Some(Refusal::TotalLen(total_len));
    }
    if octets.len() < total_len as usize {
        return Some(Refusal::Cut(total_len));
    }
    if !packet.verify_checksum() {
        return Some(Refusal::Checksum);
    }
    None
}

// The header of the packet that these octets begin with.
fn read(octets: &[u8]) -> Header<'_> {
    let packet = Ipv4Packet::new_unchecked(octets);
    let header_len = packet.header_len() as usize;
    Header {
        service: octets[SERVICE],
        ident: packet.ident(),
        dont_frag: packet.dont_frag(),
        more_frags: packet.more_frags(),
        frag_offset: packet.frag_offset() / 8,
        hop_limit: packet.hop_limit(),
        protocol: packet.next_header(),
        src_addr: packet.src_addr(),
        dst_addr: packet.dst_addr(),
        options: &octets[FIXED_LEN..header_len],
        payload_len: packet.total_len() as usize - header_len,
    }
}
