// Made from crates/frame_wire/src/datagram/headers.rt by rust/erase.
//! The headers that extend IPv6 (RFC 8200 section 4).

use crate::frames::link::behind;
use crate::wirebase::{IpProtocol, Ipv6Address, Octets};

// The bytes of a fragment header.
pub(super) const FRAGMENT_HEADER_LEN: usize = 8;

// The options of a hop-by-hop header; other headers have none.
pub(super) fn options_of(protocol: IpProtocol, header: &[u8]) -> Option<&[u8]> {
    if protocol == IpProtocol::HopByHop {
        return Some(&header[2..8 * header[1] as usize + 8]);
    }
    None
}

// What the extension headers of IPv6 lead to.
#[derive(Debug, PartialEq, Eq, Clone, Copy)]
pub(super) struct Upper<'a> {
    pub(super) protocol: IpProtocol,
    pub(super) payload: &'a [u8],
    pub(super) dst_addr: Ipv6Address,
}

// Passes the extension headers of IPv6. Refused where one of them is not whole, with its protocol.
#[inline(always)]
pub(super) fn pass_headers<'a>(
    next_header: IpProtocol,
    payload: &'a [u8],
    dst_addr: Ipv6Address,
) -> Result<Upper<'a>, IpProtocol> {
    let mut protocol = next_header;
    let mut rest = payload;
    let mut dst_addr = dst_addr;
    while is_passed(protocol, rest) {
        let Some(end) = header_end(protocol, rest) else {
            return Err(protocol);
        };
        dst_addr = behind_header(protocol, rest, dst_addr);
        protocol = IpProtocol::from(rest[0]);
        rest = behind(rest, end);
    }
    Ok(Upper {
        protocol,
        payload: rest,
        dst_addr,
    })
}

// Whether a header is passed.
fn is_passed(protocol: IpProtocol, header: &[u8]) -> bool {
    is_extension(protocol) || is_atomic(protocol, header)
}

// Whether this is a header of options or of routing.
pub(super) fn is_extension(protocol: IpProtocol) -> bool {
    protocol == IpProtocol::HopByHop
        || protocol == IpProtocol::Ipv6Route
        || protocol == IpProtocol::Ipv6Opts
}

// Whether this is the protocol of a fragment header.
pub(super) fn is_fragment(protocol: IpProtocol) -> bool {
    protocol == IpProtocol::Ipv6Frag
}

// Whether this is the header of a fragment that is a whole datagram.
fn is_atomic(protocol: IpProtocol, header: &[u8]) -> bool {
    if !is_fragment(protocol) || header.len() < FRAGMENT_HEADER_LEN {
        return false;
    }
    let offset_and_flag = header.u16_at(2..4);
    offset_and_flag / 8 == 0 && offset_and_flag % 2 == 0
}

// The end of a header that is passed; None where it is not whole. An atomic fragment header always is.
pub(super) fn header_end(protocol: IpProtocol, header: &[u8]) -> Option<usize> {
    if is_fragment(protocol) {
        return Some(FRAGMENT_HEADER_LEN);
    }
    if !has_extension(header) {
        return None;
    }
    Some(8 * header[1] as usize + 8)
}

// The destination after a header that is passed.
fn behind_header(protocol: IpProtocol, header: &[u8], dst_addr: Ipv6Address) -> Ipv6Address {
    if protocol == IpProtocol::Ipv6Route {
        return routed(header, dst_addr);
    }
    dst_addr
}

// Whether the octets begin with a whole header.
pub(super) fn has_extension(octets: &[u8]) -> bool {
    octets.len() >= 8 && octets.len() >= 8 * octets[1] as usize + 8
}

// The address that a routing header with segments left leads to.
fn routed(header: &[u8], dst_addr: Ipv6Address) -> Ipv6Address {
    let end = 8 * header[1] as usize + 8;
    if header[3] == 0 || end < 24 {
        return dst_addr;
    }
    match header[2] {
        4 => Ipv6Address::from_octets(header.range(8, 24).try_into().unwrap()),
        0 | 2 => Ipv6Address::from_octets(header.range(end - 16, end).try_into().unwrap()),
        _ => dst_addr,
    }
}
