// Made from crates/examples/src/unreachable.rt by rust/erase.
//! The errors that a host or a router sends about a datagram: over IPv4 (RFC 792) and over IPv6 (RFC 4443 section 3).
//! Each quotes as many of the datagram's own bytes as it may. None is sent about an error, about what did not come from
//! one host, or about what went to many (RFC 1122 section 3.2.2, RFC 4443 section 2.4); the caller sees to link-layer
//! broadcasts and multicasts, to broadcast addresses of a network, and to the rate of errors.

use control_wire::quotes::{icmpv4_error, icmpv6_error};
use control_wire::{ChecksumCapabilities, IpProtocol, Ipv4Packet, Ipv6Address, Ipv6Packet};

// The codes of a destination that is unreachable (RFC 792, RFC 4443 section 3.1).
const PORT: u8 = 3;

const FRAGMENTATION_NEEDED: u8 = 4;

const PORT_V6: u8 = 4;

// The type of a redirect (RFC 4861 section 4.5).
const REDIRECT: u8 = 137;

// The bytes of an IPv4 header without options, and of an IPv6 header.
const IPV4_HEADER_LEN: u8 = 20;

const IPV6_HEADER_LEN: usize = 40;

/// Writes the error that no one listens at the port of an IPv4 datagram to the start of the octets, and returns its
/// length in bytes: 8, and as many as it quotes of the datagram, at most 548. It goes to the datagram's source. None
/// exactly where no error may be sent about it, or where the octets are too short; then they are unchanged.
pub fn port_unreachable(datagram: &[u8], out: &mut [u8]) -> Option<usize> {
    let kind = icmpv4_error::Kind::DstUnreachable;
    tell(kind, PORT, 0, datagram, out)
}

/// The error about a datagram that has no hops left, sent by a router.
pub fn time_exceeded(datagram: &[u8], out: &mut [u8]) -> Option<usize> {
    tell(icmpv4_error::Kind::TimeExceeded, 0, 0, datagram, out)
}

/// The error about a datagram that is not to be fragmented and larger than the next link carries, `mtu` bytes, sent by
/// a router (RFC 1191 section 4).
pub fn too_big(mtu: u16, datagram: &[u8], out: &mut [u8]) -> Option<usize> {
    let kind = icmpv4_error::Kind::DstUnreachable;
    tell(kind, FRAGMENTATION_NEEDED, mtu as u32, datagram, out)
}

// Writes the error of this type and code about a datagram.
fn tell(
    kind: icmpv4_error::Kind,
    code: u8,
    rest: u32,
    datagram: &[u8],
    out: &mut [u8],
) -> Option<usize> {
    let quoted = match quotable(datagram) {
        Some(quoted) => quoted,
        None => return None,
    };
    let error = icmpv4_error::Repr {
        kind,
        code,
        rest,
        quoted,
    };
    write(&error, out)
}

// Writes an error to the start of the octets.
fn write(error: &icmpv4_error::Repr<'_>, out: &mut [u8]) -> Option<usize> {
    let len = error.buffer_len();
    if out.len() < len {
        return None;
    }
    let caps = ChecksumCapabilities::default();
    error.emit_into(&mut out[..len], &caps);
    Some(len)
}

// The datagram, where an error about it may be sent.
fn quotable(datagram: &[u8]) -> Option<&[u8]> {
    let packet = match Ipv4Packet::new_checked(datagram) {
        Ok(packet) => packet,
        Err(_) => return None,
    };
    let source = packet.src_addr().octets()[0];
    let destination = packet.dst_addr().octets()[0];
    if packet.header_len() < IPV4_HEADER_LEN || source == 0 || source == 127 || source >= 224 {
        return None;
    }
    if destination >= 224 || packet.frag_offset() != 0 || is_error(&packet) {
        return None;
    }
    Some(&datagram[..packet.total_len() as usize])
}

// Whether a whole packet is an ICMP error.
fn is_error(packet: &Ipv4Packet<&[u8]>) -> bool {
    match packet.payload() {
        [kind, ..] => packet.next_header() == IpProtocol::Icmp && matches!(*kind, 3..=5 | 11 | 12),
        [] => false,
    }
}

/// Writes the error that no one listens at the port of an IPv6 packet to the start of the octets, and returns its
/// length in bytes: 8, and as many as it quotes of the packet, at most 1,232. It goes from the address of this host to
/// the packet's source. None exactly where no error may be sent about it, or where the octets are too short; then they
/// are unchanged.
pub fn port_unreachable_v6(own: &Ipv6Address, packet: &[u8], out: &mut [u8]) -> Option<usize> {
    if !is_to_host(packet) {
        return None;
    }
    let kind = icmpv6_error::Kind::DstUnreachable;
    tell_v6(own, kind, PORT_V6, 0, packet, out)
}

/// The error about a packet that has no hops left, sent by a router.
pub fn time_exceeded_v6(own: &Ipv6Address, packet: &[u8], out: &mut [u8]) -> Option<usize> {
    if !is_to_host(packet) {
        return None;
    }
    let kind = icmpv6_error::Kind::TimeExceeded;
    tell_v6(own, kind, 0, 0, packet, out)
}

/// The error about a packet that is larger than the next link carries, `mtu` bytes, sent by a router. It is sent for
/// multicast packets too (RFC 4443 section 2.4(e.3)).
pub fn too_big_v6(own: &Ipv6Address, mtu: u32, packet: &[u8], out: &mut [u8]) -> Option<usize> {
    let kind = icmpv6_error::Kind::PktTooBig;
    tell_v6(own, kind, 0, mtu, packet, out)
}

// Writes the error of this type and code about a packet.
fn tell_v6(
    own: &Ipv6Address,
    kind: icmpv6_error::Kind,
    code: u8,
    rest: u32,
    packet: &[u8],
    out: &mut [u8],
) -> Option<usize> {
    let (source, quoted) = match quotable_v6(packet) {
        Some(read) => read,
        None => return None,
    };
    let error = icmpv6_error::Repr {
        kind,
        code,
        rest,
        quoted,
    };
    write_v6(&error, own, &source, out)
}

// Writes an error from this host to the start of the octets.
fn write_v6(
    error: &icmpv6_error::Repr<'_>,
    own: &Ipv6Address,
    source: &Ipv6Address,
    out: &mut [u8],
) -> Option<usize> {
    let len = error.buffer_len();
    if out.len() < len {
        return None;
    }
    let caps = ChecksumCapabilities::default();
    error.emit_into(own, source, &mut out[..len], &caps);
    Some(len)
}

// The source of a packet, and the packet, where an error about it may be sent.
fn quotable_v6(octets: &[u8]) -> Option<(Ipv6Address, &[u8])> {
    let packet = match Ipv6Packet::new_checked(octets) {
        Ok(packet) => packet,
        Err(_) => return None,
    };
    let source = packet.src_addr();
    if packet.version() != 6
        || source.is_unspecified()
        || source.is_multicast()
        || is_error_v6(&packet)
    {
        return None;
    }
    Some((
        source,
        &octets[..IPV6_HEADER_LEN + packet.payload_len() as usize],
    ))
}

// Whether the octets are a whole packet that goes to one host.
fn is_to_host(octets: &[u8]) -> bool {
    match Ipv6Packet::new_checked(octets) {
        Ok(packet) => !packet.dst_addr().is_multicast(),
        Err(_) => false,
    }
}

// Whether a whole packet is an error of ICMPv6 or a redirect.
fn is_error_v6(packet: &Ipv6Packet<&[u8]>) -> bool {
    match packet.payload() {
        [kind, ..] => {
            packet.next_header() == IpProtocol::Icmpv6 && (*kind < 128 || *kind == REDIRECT)
        }
        [] => false,
    }
}
