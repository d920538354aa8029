// Made from crates/reassembly/src/fragment.rt by rust/erase.
//! Fragments of datagrams, as their headers tell them.

use crate::answer::Refusal;
use crate::key::Key;
use crate::piece::{MOST_LEN, MOST_OPTIONS_LEN};
use control_wire::frames::{Addresses, Datagram, Head, Refusal as HeaderRefusal};
use control_wire::{IpProtocol, Ipv4Packet, Ipv6Packet, Octets};

/// A fragment of a datagram, which borrows its options and its payload from the octets of the packet.
///
/// ```
/// use control_wire::IpProtocol;
/// use reassembly::Fragment;
///
/// // The last fragment of a UDP datagram over IPv4: eight bytes at offset 1,480.
/// let octets = [
///     0x45, 0, 0, 28, 0x12, 0x34, 0x00, 0xb9, 64, 17, 0, 0, 192, 0, 2, 1, 192, 0, 2, 2, //
///     1, 2, 3, 4, 5, 6, 7, 8,
/// ];
/// let fragment = Fragment::parse_v4(&octets).unwrap();
/// assert_eq!(fragment.protocol, IpProtocol::Udp);
/// assert_eq!((fragment.ident, fragment.frag_offset), (0x1234, 1_480));
/// assert!(!fragment.more_frags);
/// assert_eq!(fragment.payload, [1, 2, 3, 4, 5, 6, 7, 8]);
/// ```
#[derive(Debug, PartialEq, Eq, Clone, Copy)]
pub struct Fragment<'a> {
    /// The source and the destination; in IPv6 the last destination, as routing headers say.
    pub addresses: Addresses,
    /// The protocol of the datagram's payload. In IPv6 this may be a header that extends IPv6.
    pub protocol: IpProtocol,
    /// The identification, which the fragments of one datagram share: 16 bits in IPv4, 32 bits in IPv6.
    pub ident: u32,
    /// The offset of these bytes in the datagram's payload, in bytes.
    pub frag_offset: u16,
    /// Whether more fragments follow.
    pub more_frags: bool,
    /// The options of the hop-by-hop header before that of the fragment: its octets after the first two, up to its end.
    /// It may only follow directly after the header of IPv6 (RFC 8200 section 4.1): None where it does not, and in
    /// IPv4.
    pub hop_by_hop: Option<&'a [u8]>,
    /// The bytes of the datagram's payload that this fragment has.
    pub payload: &'a [u8],
}

// The bytes of a fragment header of IPv6.
const FRAGMENT_HEADER_LEN: usize = 8;

impl<'a> Fragment<'a> {
    /// The fragment of an IPv4 datagram (RFC 791 section 3.1) at the start of the octets, by its total length; what
    /// follows it is ignored. None where they are no fragment, where `Datagram::parse_v4` refuses them for another
    /// reason, and where they end before the fragment does.
    pub fn parse_v4(octets: &'a [u8]) -> Option<Fragment<'a>> {
        match Datagram::parse_v4(octets) {
            Err(HeaderRefusal::Fragment(head)) => {
                Fragment::of(head, None, Ipv4Packet::new_unchecked(octets).payload())
            }
            Err(_) => None,
            Ok(_) => None,
        }
    }

    /// The fragment of an IPv6 datagram (RFC 8200 section 4.5) at the start of the octets, by its payload length; what
    /// follows it is ignored. Its hop-by-hop, destination and routing headers before that of the fragment are passed,
    /// and the options of a hop-by-hop header directly after the fixed one are kept. None where they are no fragment or
    /// an atomic one (RFC 6946), where `Datagram::parse_v6` refuses them for another reason, and where they end before
    /// the fragment does.
    pub fn parse_v6(octets: &'a [u8]) -> Option<Fragment<'a>> {
        let refusal = match Datagram::parse_v6(octets) {
            Err(refusal) => refusal,
            Ok(_) => return None,
        };
        match refusal {
            HeaderRefusal::Fragment(head) => {
                let packet = Ipv6Packet::new_unchecked(octets);
                let next_header = packet.next_header();
                let payload = packet.payload();
                let header = fragment_header(next_header, payload)?;
                let options = options_of(next_header, payload);
                Fragment::of(head, options, behind(header, FRAGMENT_HEADER_LEN))
            }
            _ => None,
        }
    }

    // The fragment of a head with its options and its payload; None where the head has no identification.
    fn of(head: Head, hop_by_hop: Option<&'a [u8]>, payload: &'a [u8]) -> Option<Fragment<'a>> {
        match head.ident {
            Some(ident) => Some(Fragment {
                addresses: head.addresses,
                protocol: head.protocol,
                ident,
                frag_offset: head.frag_offset,
                more_frags: head.more_frags,
                hop_by_hop,
                payload,
            }),
            None => None,
        }
    }

    /// Which datagram it is of.
    pub fn key(&self) -> Key {
        let protocol = if self.addresses.is_v4() {
            Some(self.protocol)
        } else {
            None
        };
        Key {
            addresses: self.addresses,
            protocol,
            ident: self.ident,
        }
    }

    // Why no datagram takes it; None where one may.
    pub(crate) fn refusal(&self) -> Option<Refusal> {
        let len = self.payload.len();
        if len == 0 {
            return Some(Refusal::Empty);
        }
        if !self.more_frags && self.frag_offset == 0 {
            return Some(Refusal::Unfragmented);
        }
        if self.more_frags && len % 8 != 0 {
            return Some(Refusal::Length);
        }
        if len > MOST_LEN - self.frag_offset as usize {
            return Some(Refusal::TooLong);
        }
        if self.options_len() > MOST_OPTIONS_LEN {
            return Some(Refusal::Options);
        }
        None
    }

    // The number of bytes of its hop-by-hop options.
    fn options_len(&self) -> usize {
        match self.hop_by_hop {
            Some(options) => options.len(),
            None => 0,
        }
    }

    // The place after its last byte in the datagram's payload.
    pub(crate) fn end(&self) -> usize {
        self.frag_offset as usize + self.payload.len()
    }
}

// The options of a hop-by-hop header; other headers have none.
fn options_of(protocol: IpProtocol, header: &[u8]) -> Option<&[u8]> {
    if protocol == IpProtocol::HopByHop {
        return Some(&header[2..8 * header[1] as usize + 8]);
    }
    None
}

// The header of a fragment that a protocol and the octets after it lead to, past those that extend IPv6 before it.
fn fragment_header(next_header: IpProtocol, payload: &[u8]) -> Option<&[u8]> {
    let mut protocol = next_header;
    let mut rest = payload;
    while let Some(end) = header_end(protocol, rest) {
        protocol = IpProtocol::from(rest[0]);
        rest = behind(rest, end);
    }
    if is_fragment(protocol) && rest.len() >= FRAGMENT_HEADER_LEN {
        return Some(rest);
    }
    None
}

// The octets from this place on. Requires that it is not past their end.
fn behind(octets: &[u8], place: usize) -> &[u8] {
    &octets[place..]
}

// The end of a header that is passed: one that extends IPv6, or that of an atomic fragment.
fn header_end(protocol: IpProtocol, header: &[u8]) -> Option<usize> {
    if header.len() < 8 {
        return None;
    }
    if is_extension(protocol) {
        let end = 8 * header[1] as usize + 8;
        return if header.len() < end { None } else { Some(end) };
    }
    if is_fragment(protocol) && is_atomic(header) {
        return Some(FRAGMENT_HEADER_LEN);
    }
    None
}

// Whether this is a header of options or of routing.
fn is_extension(protocol: IpProtocol) -> bool {
    protocol == IpProtocol::HopByHop
        || protocol == IpProtocol::Ipv6Route
        || protocol == IpProtocol::Ipv6Opts
}

// Whether this is the protocol of a fragment header.
fn is_fragment(protocol: IpProtocol) -> bool {
    protocol == IpProtocol::Ipv6Frag
}

// Whether this fragment header is that of a whole datagram.
fn is_atomic(header: &[u8]) -> bool {
    let offset_and_flag = header.u16_at(2..4);
    offset_and_flag / 8 == 0 && offset_and_flag % 2 == 0
}
