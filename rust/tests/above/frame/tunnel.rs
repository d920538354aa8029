// Made from crates/tests_above/src/frame/tunnel.rt by rust/erase.
use crate::testing::same_of;
use control_wire::frames::datagram::{Addresses, Datagram};
use control_wire::frames::link::Network;
use control_wire::frames::tunnel::{Inner, Refusal, Tunnel};
use control_wire::{IpProtocol, Ipv4Address, Ipv6Address};

// An echo request of ICMP from 10.0.0.1 to 10.0.0.2.
const ECHO_V4: &[u8] = &[
    0x45, 0x00, 0x00, 0x1c, 0x00, 0x01, 0x00, 0x00, 0x40, 0x01, 0x66, 0xde, 10, 0, 0, 1, 10, 0, 0,
    2, //
    0x08, 0x00, 0xf7, 0xf7, 0x00, 0x07, 0x00, 0x01,
];

// An echo request of ICMPv6 from 2001:db8::1 to 2001:db8::2.
const ECHO_V6: &[u8] = &[
    0x60, 0x00, 0x00, 0x00, 0x00, 0x08, 0x3a, 0x40, //
    0x20, 0x01, 0x0d, 0xb8, 0, 0, 0, 0, 0, 0, 0, 0, 0, 0, 0, 1, //
    0x20, 0x01, 0x0d, 0xb8, 0, 0, 0, 0, 0, 0, 0, 0, 0, 0, 0, 2, //
    0x80, 0x00, 0x24, 0x40, 0x00, 0x07, 0x00, 0x01,
];

// GRE without any part that may be left out, and with a key of 42, both before the first request.
const PLAIN: &[u8] = &[
    0x00, 0x00, 0x08, 0x00, //
    0x45, 0x00, 0x00, 0x1c, 0x00, 0x01, 0x00, 0x00, 0x40, 0x01, 0x66, 0xde, 10, 0, 0, 1, 10, 0, 0,
    2, //
    0x08, 0x00, 0xf7, 0xf7, 0x00, 0x07, 0x00, 0x01,
];

const KEY: &[u8] = &[
    0x20, 0x00, 0x08, 0x00, 0x00, 0x00, 0x00, 0x2a, //
    0x45, 0x00, 0x00, 0x1c, 0x00, 0x01, 0x00, 0x00, 0x40, 0x01, 0x66, 0xde, 10, 0, 0, 1, 10, 0, 0,
    2, //
    0x08, 0x00, 0xf7, 0xf7, 0x00, 0x07, 0x00, 0x01,
];

// GRE with a checksum, which holds, a key of 42, and the sequence number 3, before the second request.
const ALL: &[u8] = &[
    0xb0, 0x00, 0x86, 0xdd, 0x2e, 0xee, 0x00, 0x00, 0x00, 0x00, 0x00, 0x2a, 0x00, 0x00, 0x00,
    0x03, //
    0x60, 0x00, 0x00, 0x00, 0x00, 0x08, 0x3a, 0x40, //
    0x20, 0x01, 0x0d, 0xb8, 0, 0, 0, 0, 0, 0, 0, 0, 0, 0, 0, 1, //
    0x20, 0x01, 0x0d, 0xb8, 0, 0, 0, 0, 0, 0, 0, 0, 0, 0, 0, 2, //
    0x80, 0x00, 0x24, 0x40, 0x00, 0x07, 0x00, 0x01,
];

// A frame of Ethernet, and a frame that a switch mirrors in ERSPAN, which begins with a sequence number.
const BRIDGED: &[u8] = &[
    0x00, 0x00, 0x65, 0x58, //
    0x02, 0x00, 0x00, 0x00, 0x00, 0x02, 0x02, 0x00, 0x00, 0x00, 0x00, 0x01, 0x08, 0x00,
];

const MIRRORED: &[u8] = &[
    0x10, 0x00, 0x88, 0xbe, 0x00, 0x00, 0x00, 0x01, //
    0x10, 0x01, 0x00, 0x21, 0x00, 0x00, 0x00, 0x00,
];

// GRE of PPTP (RFC 2637): version 1, with a key, which has a length and a call, and a sequence number.
const PPTP: &[u8] = &[
    0x30, 0x01, 0x88, 0x0b, 0x00, 0x06, 0x00, 0x17, 0x00, 0x00, 0x00, 0x01, //
    0xff, 0x03, 0x00, 0x21, 0x00, 0x00,
];

#[test]
fn protocols_of_tunnels() {
    for number in 0..=255 {
        let want = match number {
            4 => Some(Tunnel::Ipv4),
            41 => Some(Tunnel::Ipv6),
            47 => Some(Tunnel::Gre),
            _ => None,
        };
        same_of(number, Tunnel::of(IpProtocol::from(number)), want);
    }
}

#[test]
fn what_is_in_a_tunnel() {
    // The header, the network, and whether its checksum holds where it has one.
    let rows = [
        (Tunnel::Ipv4, ECHO_V4, 0, Network::Ipv4, None),
        (Tunnel::Ipv6, ECHO_V6, 0, Network::Ipv6, None),
        (Tunnel::Gre, PLAIN, 4, Network::Ipv4, None),
        (Tunnel::Gre, KEY, 8, Network::Ipv4, None),
        (Tunnel::Gre, ALL, 16, Network::Ipv6, Some(true)),
        (Tunnel::Gre, BRIDGED, 4, Network::Other(0x6558), None),
        (Tunnel::Gre, MIRRORED, 8, Network::Other(0x88be), None),
    ];
    for (tunnel, octets, header_len, network, checksum) in rows {
        let want = Inner {
            tunnel,
            network,
            payload: &octets[header_len..],
        };
        same_of(octets, tunnel.inner(octets), Ok(want));
        same_of(octets, tunnel.verify_checksum(octets), checksum);
    }
}

// The packet with other bytes at its start.
fn changed(start: [u8; 2]) -> [u8; 64] {
    let mut octets = [0; 64];
    octets.copy_from_slice(ALL);
    octets[..2].copy_from_slice(&start);
    octets
}

#[test]
fn headers_of_gre_that_are_refused() {
    let rows = [
        // Of other versions, and with a flag for which a receiver discards the packet: that of a routing field, of a
        // strict source route, and the highest bit of the count of recursions (RFC 1701).
        ([0xb0, 0x01], Refusal::Version(1)),
        ([0x40, 0x07], Refusal::Version(7)),
        ([0x40, 0x00], Refusal::Routing),
        ([0xfc, 0x00], Refusal::Routing),
        ([0x08, 0x00], Refusal::Reserved),
        ([0x04, 0x00], Refusal::Reserved),
    ];
    for (start, refusal) in rows {
        let octets = changed(start);
        same_of(start, Tunnel::Gre.inner(&octets), Err(refusal));
        same_of(start, Tunnel::Gre.verify_checksum(&octets), None);
    }
    same_of(PPTP, Tunnel::Gre.inner(PPTP), Err(Refusal::Version(1)));
    // The bits after those are ignored.
    let read = Tunnel::Gre.inner(&changed([0x03, 0xf8])).is_ok();
    same_of("ignored", read, true);
}

#[test]
fn packets_of_gre_that_are_cut() {
    for len in 0..17 {
        let read = match Tunnel::Gre.inner(&ALL[..len]) {
            Ok(inner) => Ok(inner.payload.len()),
            Err(refusal) => Err(refusal),
        };
        let want = match len {
            0..=3 => Err(Refusal::Short),
            4..=15 => Err(Refusal::Cut(16)),
            _ => Ok(0),
        };
        same_of(len, read, want);
    }
    // The checksum of a whole packet with another byte.
    let mut octets = changed([0xb0, 0x00]);
    octets[63] = 0x02;
    let holds = Tunnel::Gre.verify_checksum(&octets);
    same_of("another byte", holds, Some(false));
}

// GRE over IPv4 from 192.0.2.1 to 192.0.2.2, and over IPv6, with the packet with all parts.
#[test]
fn a_tunnel_over_either_version() {
    let mut over_v4 = [0; 84];
    over_v4[..20].copy_from_slice(&[
        0x45, 0x00, 0x00, 0x54, 0x00, 0x01, 0x00, 0x00, 0x40, 0x2f, 0xf6, 0x76, 192, 0, 2, 1, 192,
        0, 2, 2,
    ]);
    over_v4[20..].copy_from_slice(ALL);
    let outer = Datagram::parse_v4(&over_v4).ok();
    same_of("over IPv4", inner_addresses(outer), Some(within()));

    let mut over_v6 = [0; 104];
    over_v6[..40].copy_from_slice(&ECHO_V6[..40]);
    over_v6[4..8].copy_from_slice(&[0x00, 0x40, 0x2f, 0x40]);
    over_v6[40..].copy_from_slice(ALL);
    let outer = Datagram::parse_v6(&over_v6).ok();
    same_of("over IPv6", inner_addresses(outer), Some(within()));

    let plain = Datagram::parse_v4(ECHO_V4).ok();
    same_of("no tunnel", inner_addresses(plain), None);
}

// The addresses of the datagram of IPv6 within another.
fn inner_addresses(outer: Option<Datagram<'_>>) -> Option<Addresses> {
    let outer = outer?;
    let inner = Tunnel::of(outer.protocol)?.inner(outer.payload).ok()?;
    Some(Datagram::parse_v6(inner.payload).ok()?.addresses)
}

fn within() -> Addresses {
    Addresses::V6(
        Ipv6Address::new(0x2001, 0x0db8, 0, 0, 0, 0, 0, 1),
        Ipv6Address::new(0x2001, 0x0db8, 0, 0, 0, 0, 0, 2),
    )
}
