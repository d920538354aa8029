// Made from crates/frame_wire/src/datagram.rt by rust/erase.
//! Datagrams of IPv4 and IPv6.

use self::headers::{FRAGMENT_HEADER_LEN, has_extension, is_fragment, options_of, pass_headers};
use crate::frames::link::behind;
use crate::wirebase::{
    IPV6_HEADER_LEN, IpProtocol, Ipv4Address, Ipv4Packet, Ipv6Address, Ipv6Packet, Octets, checksum,
};

mod captured;
mod display;
mod headers;
mod joined;
mod jumbogram;

pub use captured::{Captured, Extent};

/// The two addresses of a datagram, the source first.
#[derive(Debug, PartialEq, Eq, Clone, Copy)]
pub enum Addresses {
    /// IPv4: the source and the destination.
    V4(Ipv4Address, Ipv4Address),
    /// IPv6: the source and the destination.
    V6(Ipv6Address, Ipv6Address),
}

impl Addresses {
    /// Whether these are IPv4 addresses.
    pub fn is_v4(&self) -> bool {
        matches!(self, Addresses::V4(_, _))
    }

    /// The sum of the pseudo header that the checksum of a protocol's payload of this many bytes covers (RFC 768, RFC
    /// 8200 section 8.1).
    pub fn sum_before(&self, protocol: IpProtocol, len: u32) -> u16 {
        match self {
            Addresses::V4(src_addr, dst_addr) => {
                checksum::pseudo_header_v4(src_addr, dst_addr, protocol, len)
            }
            Addresses::V6(src_addr, dst_addr) => {
                checksum::pseudo_header_v6(src_addr, dst_addr, protocol, len)
            }
        }
    }
}

/// Why octets are refused as a datagram: the check that fails first.
#[derive(Debug, PartialEq, Eq, Clone, Copy)]
#[non_exhaustive]
pub enum Refusal {
    /// They end before the fixed header does: fewer than 20 bytes of IPv4, or 40 of IPv6.
    Short,
    /// The version is not 4 or 6 respectively; this is its number.
    Version(u8),
    /// The header length of IPv4 is below 20 bytes; this is the length.
    HeaderLen(u8),
    /// The total length of IPv4 is below the header length; this is the total length in bytes.
    TotalLen(u16),
    /// They end before the datagram does by its own length, or within the hop-by-hop header that has the length of a
    /// jumbogram, as where a capture kept only the start; `Captured` reads what is there.
    Cut(Head),
    /// They are a jumbogram that contradicts itself (RFC 2675 section 3): the payload length is 0 before a hop-by-hop
    /// header, whose options don't lead to one with a length of 65,536 bytes or more; or there is a header of a
    /// fragment too.
    Jumbogram,
    /// A header that extends IPv6, of this protocol, goes on past the end of the datagram.
    Extension(IpProtocol),
    /// They are a fragment. An atomic fragment of IPv6 (RFC 6946 section 2), at offset 0 with no more fragments after
    /// it, is a whole datagram and is read.
    Fragment(Head),
}

/// What the headers of a cut datagram or a fragment tell.
#[derive(Debug, PartialEq, Eq, Clone, Copy)]
pub struct Head {
    /// The source and the destination: for a fragment of IPv6 the last one, as its routing headers say, and else that
    /// of the fixed header.
    pub addresses: Addresses,
    /// The protocol of the payload. For an IPv6 datagram that is cut this is the next header of the fixed header, since
    /// those that follow may be cut; `Captured::parse_v6` passes them.
    pub protocol: IpProtocol,
    /// The identification that the fragments of one datagram share; None for an IPv6 datagram that is cut, of which
    /// only the fixed header is read.
    pub ident: Option<u32>,
    /// The offset of the payload in that of the unfragmented datagram, in bytes: a multiple of 8.
    pub frag_offset: u16,
    /// Whether more fragments follow.
    pub more_frags: bool,
}

/// A datagram, of which the headers of IP are read.
///
/// ```
/// use control_wire::frames::{Addresses, Datagram};
/// use control_wire::{IpProtocol, Ipv6Address};
///
/// // A datagram of IPv6 whose hop-by-hop header is passed; its options are handed out.
/// let mut octets = [0; 49];
/// octets[..8].copy_from_slice(&[0x60, 0, 0, 0, 0, 9, 0, 1]);
/// octets[40..].copy_from_slice(&[58, 0, 5, 2, 0, 0, 1, 0, 143]);
/// let datagram = Datagram::parse_v6(&octets).unwrap();
/// let any = Ipv6Address::UNSPECIFIED;
/// assert_eq!(datagram.addresses, Addresses::V6(any, any));
/// assert_eq!(datagram.protocol, IpProtocol::Icmpv6);
/// assert_eq!(datagram.hop_by_hop, Some(&[5, 2, 0, 0, 1, 0][..]));
/// assert_eq!(datagram.payload, [143]);
/// ```
#[derive(Debug, PartialEq, Eq, Clone, Copy)]
pub struct Datagram<'a> {
    /// The source and the destination. The source is that of the fixed header. The destination is the one that
    /// checksums count (RFC 8200 section 8.1): in IPv6 that of the last hop where a routing header with segments left
    /// names it, and else, as in IPv4, that of the fixed header.
    pub addresses: Addresses,
    /// The protocol of the payload.
    pub protocol: IpProtocol,
    /// The hops that are left.
    pub hop_limit: u8,
    /// The options of the hop-by-hop header, which `ipv6hbh::Header` reads: its octets after the first two, up to its
    /// end. It may only follow directly after the header of IPv6 (RFC 8200 section 4.1): None where it does not, and in
    /// IPv4.
    pub hop_by_hop: Option<&'a [u8]>,
    /// The payload: what follows the options of IPv4 or the extension headers of IPv6, up to the datagram's end.
    pub payload: &'a [u8],
}

// The bytes of an IPv4 header without options.
const IPV4_HEADER_LEN: usize = 20;

impl<'a> Datagram<'a> {
    /// The IPv4 datagram at the start of the octets, by its total length; what follows it, such as padding, is ignored.
    /// The header's checksum is not verified, since machines that leave it to their network cards capture packets
    /// without one; a receive path calls `Ipv4Packet::verify_checksum` too.
    #[inline]
    pub fn parse_v4(octets: &'a [u8]) -> Result<Datagram<'a>, Refusal> {
        if octets.len() < IPV4_HEADER_LEN {
            return Err(Refusal::Short);
        }
        let packet = Ipv4Packet::new_unchecked(octets);
        let header_len = packet.header_len() as usize;
        let total_len = packet.total_len() as usize;
        if packet.version() != 4 || header_len < IPV4_HEADER_LEN || total_len < header_len {
            return Err(malformed_v4(octets));
        }
        if octets.len() < total_len {
            return Err(Refusal::Cut(head_v4(octets)));
        }
        if packet.more_frags() || packet.frag_offset() != 0 {
            return Err(Refusal::Fragment(head_v4(octets)));
        }
        Ok(Datagram {
            addresses: Addresses::V4(packet.src_addr(), packet.dst_addr()),
            protocol: packet.next_header(),
            hop_limit: packet.hop_limit(),
            hop_by_hop: None,
            payload: packet.payload(),
        })
    }

    /// The IPv6 datagram at the start of the octets, by its payload length; what follows it is ignored. Its hop-by-hop,
    /// destination and routing headers are passed, and the options of a hop-by-hop header directly after the fixed one
    /// are kept. The header of an atomic fragment (RFC 6946 section 2), at offset 0 with no more fragments after it, is
    /// passed too; every other fragment is refused. A jumbogram (RFC 2675), whose payload length is 0 before a
    /// hop-by-hop header, ends by the length in the option of that header.
    pub fn parse_v6(octets: &'a [u8]) -> Result<Datagram<'a>, Refusal> {
        if octets.len() < IPV6_HEADER_LEN {
            return Err(Refusal::Short);
        }
        let packet = Ipv6Packet::new_unchecked(octets);
        if packet.version() != 6 {
            return Err(Refusal::Version(packet.version()));
        }
        if is_jumbogram(octets) {
            return parse_jumbogram(octets);
        }
        let len = packet.payload_len() as usize;
        if octets.len() - IPV6_HEADER_LEN < len {
            return Err(Refusal::Cut(head_v6(octets)));
        }
        read_unbroken(octets, behind_v6(octets, len))
    }
}

// The jumbogram at the start of the octets. Never inlined: what is none would pay for it.
#[inline(never)]
fn parse_jumbogram(octets: &[u8]) -> Result<Datagram<'_>, Refusal> {
    let Some(len) = len_v6(octets) else {
        return Err(endless_v6(octets));
    };
    if octets.len() - IPV6_HEADER_LEN < len {
        return Err(Refusal::Cut(head_v6(octets)));
    }
    read_v6(octets, behind_v6(octets, len))
}

// Which length or version of an IPv4 header is wrong.
#[inline(never)]
fn malformed_v4(octets: &[u8]) -> Refusal {
    let packet = Ipv4Packet::new_unchecked(octets);
    if packet.version() != 4 {
        return Refusal::Version(packet.version());
    }
    if (packet.header_len() as usize) < IPV4_HEADER_LEN {
        return Refusal::HeaderLen(packet.header_len());
    }
    Refusal::TotalLen(packet.total_len())
}

// What the fixed IPv4 header tells.
#[inline(never)]
fn head_v4(octets: &[u8]) -> Head {
    let packet = Ipv4Packet::new_unchecked(octets);
    Head {
        addresses: Addresses::V4(packet.src_addr(), packet.dst_addr()),
        protocol: packet.next_header(),
        ident: Some(packet.ident() as u32),
        frag_offset: packet.frag_offset(),
        more_frags: packet.more_frags(),
    }
}

// What the fixed IPv6 header tells.
#[inline(never)]
fn head_v6(octets: &[u8]) -> Head {
    let packet = Ipv6Packet::new_unchecked(octets);
    Head {
        addresses: Addresses::V6(packet.src_addr(), packet.dst_addr()),
        protocol: packet.next_header(),
        ident: None,
        frag_offset: 0,
        more_frags: false,
    }
}

// The number of bytes after the fixed IPv6 header by the datagram's own length. None for a jumbogram whose hop-by-hop
// header is cut, or has no length.
#[inline(always)]
fn len_v6(octets: &[u8]) -> Option<usize> {
    if !is_jumbogram(octets) {
        return Some(Ipv6Packet::new_unchecked(octets).payload_len() as usize);
    }
    match jumbogram::jumbo_len(behind(octets, IPV6_HEADER_LEN)) {
        Some(len) => Some(len as usize),
        None => None,
    }
}

// So many bytes after the fixed IPv6 header.
#[inline(always)]
fn behind_v6(octets: &[u8], len: usize) -> &[u8] {
    &octets[IPV6_HEADER_LEN..IPV6_HEADER_LEN + len]
}

// Whether the fixed IPv6 header leaves the length to an option.
#[inline(always)]
fn is_jumbogram(octets: &[u8]) -> bool {
    let packet = Ipv6Packet::new_unchecked(octets);
    packet.payload_len() == 0 && packet.next_header() == IpProtocol::HopByHop
}

// Why the end of a jumbogram is not known.
#[inline(never)]
fn endless_v6(octets: &[u8]) -> Refusal {
    if has_extension(behind(octets, IPV6_HEADER_LEN)) {
        return Refusal::Jumbogram;
    }
    Refusal::Cut(head_v6(octets))
}

// The datagram of a fixed IPv6 header and of what follows it. Inlined, as are the calls down to the passing of headers,
// so that a datagram is not copied from call to call.
#[inline(always)]
fn read_v6<'a>(octets: &[u8], behind: &'a [u8]) -> Result<Datagram<'a>, Refusal> {
    if is_broken(octets, behind) {
        return Err(Refusal::Jumbogram);
    }
    read_unbroken(octets, behind)
}

// Whether they are a jumbogram with a fragment header.
#[inline(always)]
fn is_broken(octets: &[u8], behind: &[u8]) -> bool {
    let next_header = Ipv6Packet::new_unchecked(octets).next_header();
    is_jumbogram(octets) && jumbogram::has_fragment(next_header, behind)
}

// The datagram of a fixed header and of what follows it, other than a jumbogram with a fragment header.
#[inline(always)]
fn read_unbroken<'a>(octets: &[u8], behind: &'a [u8]) -> Result<Datagram<'a>, Refusal> {
    let packet = Ipv6Packet::new_unchecked(octets);
    let next_header = packet.next_header();
    let upper = match pass_headers(next_header, behind, packet.dst_addr()) {
        Ok(upper) => upper,
        Err(protocol) => return Err(Refusal::Extension(protocol)),
    };
    if is_fragment(upper.protocol) {
        return Err(told_of_fragment(
            packet.src_addr(),
            upper.dst_addr,
            upper.payload,
        ));
    }
    Ok(Datagram {
        addresses: Addresses::V6(packet.src_addr(), upper.dst_addr),
        protocol: upper.protocol,
        hop_limit: packet.hop_limit(),
        hop_by_hop: options_of(next_header, behind),
        payload: upper.payload,
    })
}

// What is told of the fragment header that the IPv6 headers lead to (RFC 8200 section 4.5).
#[inline(never)]
fn told_of_fragment(src_addr: Ipv6Address, dst_addr: Ipv6Address, header: &[u8]) -> Refusal {
    if header.len() < FRAGMENT_HEADER_LEN {
        return Refusal::Extension(IpProtocol::Ipv6Frag);
    }
    let offset_and_flag = header.u16_at(2..4);
    Refusal::Fragment(Head {
        addresses: Addresses::V6(src_addr, dst_addr),
        protocol: IpProtocol::from(header[0]),
        ident: Some(header.u32_at(4..8)),
        frag_offset: 8 * (offset_and_flag / 8),
        more_frags: offset_and_flag % 2 == 1,
    })
}
