// Made from crates/dump_captures/src/refused.rt by rust/erase.
//! What is known of a datagram that is refused.

use crate::content::{Content, content_by};
use crate::kind::{Kind, Reason};
use crate::path::Path;
use crate::ports::Ports;
use crate::refusal::Refusal;
use crate::sight::{Headers, Sight, hop_limit_of, is_header_bad, protocol_category};
use control_wire::frames::{Addresses, Captured, Extent, Head};
use control_wire::{IpProtocol, Ipv4Packet};
use packet_fields::ports::ports_of;

/// A packet of which only the way to its datagram is known.
pub(crate) fn untold(path: Path<'_>, reason: Reason, refusal: Refusal) -> Sight<'_> {
    Sight::Control(Headers {
        path,
        addresses: None,
        ports: None,
        hop_limit: None,
        hop_by_hop: None,
        is_header_bad: false,
        content: Content::Refused(Kind::Frame, reason, refusal),
    })
}

/// A refused datagram, of which this is known.
pub fn told<'a>(
    given: &Ports,
    path: &Path<'a>,
    addresses: Addresses,
    protocol: IpProtocol,
    ports: Option<(u16, u16)>,
    reason: Reason,
    refusal: Refusal,
) -> Sight<'a> {
    let Some(content) = content_by(given, &addresses, protocol, ports, &[]) else {
        return Sight::Other(protocol_category(protocol));
    };
    Sight::Control(Headers {
        path: *path,
        addresses: Some(addresses),
        ports,
        hop_limit: None,
        hop_by_hop: None,
        is_header_bad: false,
        content: Content::Refused(content.kind(), reason, refusal),
    })
}

// A refused datagram, of which the start is known: what is there of one that is cut.
fn told_front<'a>(
    given: &Ports,
    path: &Path<'a>,
    is_header_bad: bool,
    front: &Captured<'a>,
    reason: Reason,
    refusal: Refusal,
) -> Sight<'a> {
    let datagram = &front.datagram;
    let (protocol, payload) = (datagram.protocol, datagram.payload);
    let ports = ports_of(protocol, payload);
    let Some(content) = content_by(given, &datagram.addresses, protocol, ports, payload) else {
        return Sight::Other(protocol_category(protocol));
    };
    Sight::Control(Headers {
        path: *path,
        addresses: Some(datagram.addresses),
        ports,
        hop_limit: hop_limit_of(path, datagram),
        hop_by_hop: datagram.hop_by_hop,
        is_header_bad,
        content: front_content(front.extent, reason, refusal, content),
    })
}

// What there is of a refused datagram, of which this would be the content.
fn front_content(
    extent: Extent,
    reason: Reason,
    refusal: Refusal,
    content: Content<'_>,
) -> Content<'_> {
    match (extent, content) {
        (Extent::Cut { missing }, Content::Whole(message)) => {
            Content::Cut(message, missing as u64, reason)
        }
        (_, content) => Content::Refused(content.kind(), reason, refusal),
    }
}

/// What is known of a refused IPv4 datagram, as far as it was captured.
pub(crate) fn refused_v4<'a>(
    given: &Ports,
    path: &Path<'a>,
    octets: &'a [u8],
    reason: Reason,
    refusal: Refusal,
) -> Sight<'a> {
    match Captured::parse_v4(octets) {
        Ok(front) => told_front(given, path, is_header_bad(octets), &front, reason, refusal),
        Err(other) => match head_of(other) {
            Some(head) => {
                let ports = ports_behind(octets, &head);
                told(
                    given,
                    path,
                    head.addresses,
                    head.protocol,
                    ports,
                    reason,
                    refusal,
                )
            }
            None => untold(*path, reason, refusal),
        },
    }
}

// The ports after an IPv4 header; a fragment that is not the first begins with none.
fn ports_behind(octets: &[u8], head: &Head) -> Option<(u16, u16)> {
    if head.frag_offset == 0 {
        ports_of(head.protocol, behind_header(octets))
    } else {
        None
    }
}

// What follows an IPv4 header, by the header's length.
fn behind_header(octets: &[u8]) -> &[u8] {
    if octets.is_empty() {
        return octets;
    }
    let header_len = Ipv4Packet::new_unchecked(octets).header_len() as usize;
    octets.get(header_len..).unwrap_or(&[])
}

/// What is known of a refused IPv6 datagram, as far as it was captured.
pub(crate) fn refused_v6<'a>(
    given: &Ports,
    path: &Path<'a>,
    octets: &'a [u8],
    reason: Reason,
    refusal: Refusal,
) -> Sight<'a> {
    match Captured::parse_v6(octets) {
        Ok(front) => told_front(given, path, false, &front, reason, refusal),
        Err(other) => match head_of(other) {
            Some(head) => told(
                given,
                path,
                head.addresses,
                head.protocol,
                None,
                reason,
                refusal,
            ),
            None => untold(*path, reason, refusal),
        },
    }
}

// What is known of a datagram whose start was not captured.
fn head_of(refusal: control_wire::frames::Refusal) -> Option<Head> {
    match refusal {
        control_wire::frames::Refusal::Cut(head)
        | control_wire::frames::Refusal::Fragment(head) => Some(head),
        control_wire::frames::Refusal::Short
        | control_wire::frames::Refusal::Version(_)
        | control_wire::frames::Refusal::HeaderLen(_)
        | control_wire::frames::Refusal::TotalLen(_)
        | control_wire::frames::Refusal::Jumbogram
        | control_wire::frames::Refusal::Extension(_) => None,
        _ => unreachable!(),
    }
}
