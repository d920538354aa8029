// Made from crates/tests_above/src/frame/datagram.rt by rust/erase.
use crate::testing::same_of;
use control_wire::frames::datagram::{Addresses, Captured, Datagram, Extent, Head, Refusal};
use control_wire::{IpProtocol, Ipv4Address, Ipv6Address};

// A router alert option, one byte of ICMP, and padding of a frame behind it.
const V4: &[u8] = &[
    0x46, 0xc0, 0x00, 0x19, 0x00, 0x01, 0x40, 0x00, 0x01, 0x01, 0x00, 0x00, 192, 0, 2, 1, 224, 0,
    0, 1, //
    0x94, 0x04, 0x00, 0x00, 0x08, 0x00, 0x00,
];

#[test]
fn a_datagram_of_ipv4() {
    let want = Datagram {
        addresses: Addresses::V4(
            Ipv4Address::new(192, 0, 2, 1),
            Ipv4Address::new(224, 0, 0, 1),
        ),
        protocol: IpProtocol::Icmp,
        hop_limit: 1,
        hop_by_hop: None,
        payload: &[0x08],
    };
    same_of(V4, Datagram::parse_v4(V4), Ok(want));
    for len in 0..25 {
        let refusal = if len < 20 {
            Refusal::Short
        } else {
            Refusal::Cut(head_v4(0, false))
        };
        same_of(len, Datagram::parse_v4(&V4[..len]), Err(refusal));
    }
}

// What its header tells, as of a fragment at this offset.
fn head_v4(frag_offset: u16, more_frags: bool) -> Head {
    Head {
        addresses: Addresses::V4(
            Ipv4Address::new(192, 0, 2, 1),
            Ipv4Address::new(224, 0, 0, 1),
        ),
        protocol: IpProtocol::Icmp,
        ident: Some(1),
        frag_offset,
        more_frags,
    }
}

// The datagram with another byte at a place.
fn changed(place: usize, byte: u8) -> [u8; 27] {
    let mut octets = [0; 27];
    octets.copy_from_slice(V4);
    if place < 27 {
        octets[place] = byte;
    }
    octets
}

#[test]
fn datagrams_of_ipv4_that_are_refused() {
    let rows = [
        // Of version 6, with a header of 16 bytes, with one longer than the datagram, longer than there is, with more
        // fragments, and at an offset.
        (0, 0x66, Refusal::Version(6)),
        (0, 0x44, Refusal::HeaderLen(16)),
        (0, 0x47, Refusal::TotalLen(25)),
        (3, 0x00, Refusal::TotalLen(0)),
        (3, 0x1c, Refusal::Cut(head_v4(0, false))),
        (6, 0x20, Refusal::Fragment(head_v4(0, true))),
        (7, 0x01, Refusal::Fragment(head_v4(8, false))),
    ];
    for (place, byte, refusal) in rows {
        let octets = changed(place, byte);
        same_of(place, Datagram::parse_v4(&octets), Err(refusal));
    }
}

// Hop-by-hop options, a routing header of type 0 with a segment left, and one byte of ICMPv6.
const V6: &[u8] = &[
    0x60, 0, 0, 0, 0x00, 0x21, 0x00, 0x40, //
    0x20, 0x01, 0x0d, 0xb8, 0, 0, 0, 0, 0, 0, 0, 0, 0, 0, 0, 1, //
    0x20, 0x01, 0x0d, 0xb8, 0, 0, 0, 0, 0, 0, 0, 0, 0, 0, 0, 2, //
    43, 0, 0x05, 0x02, 0, 0, 0x01, 0x00, //
    58, 2, 0, 1, 0, 0, 0, 0, 0x20, 0x01, 0x0d, 0xb8, 0, 0, 0, 0, 0, 0, 0, 0, 0, 0, 0, 3, //
    0x80, 0xff,
];

#[test]
fn a_datagram_of_ipv6() {
    let want = Datagram {
        addresses: Addresses::V6(
            Ipv6Address::new(0x2001, 0x0db8, 0, 0, 0, 0, 0, 1),
            Ipv6Address::new(0x2001, 0x0db8, 0, 0, 0, 0, 0, 3),
        ),
        protocol: IpProtocol::Icmpv6,
        hop_limit: 64,
        hop_by_hop: Some(&[0x05, 0x02, 0, 0, 0x01, 0x00]),
        payload: &[0x80],
    };
    same_of(V6, Datagram::parse_v6(V6), Ok(want));
    for len in 0..73 {
        let refusal = if len < 40 {
            Refusal::Short
        } else {
            Refusal::Cut(head_v6())
        };
        same_of(len, Datagram::parse_v6(&V6[..len]), Err(refusal));
    }
}

// What its fixed header tells.
fn head_v6() -> Head {
    Head {
        addresses: Addresses::V6(
            Ipv6Address::new(0x2001, 0x0db8, 0, 0, 0, 0, 0, 1),
            Ipv6Address::new(0x2001, 0x0db8, 0, 0, 0, 0, 0, 2),
        ),
        protocol: IpProtocol::HopByHop,
        ident: None,
        frag_offset: 0,
        more_frags: false,
    }
}

// What the fragment header after the fixed header tells.
fn fragment_v6(protocol: IpProtocol, ident: u32, frag_offset: u16, more_frags: bool) -> Head {
    Head {
        protocol,
        ident: Some(ident),
        frag_offset,
        more_frags,
        ..head_v6()
    }
}

// The datagram with another byte at a place, and the answer to it.
fn answer_of(place: usize, byte: u8) -> (Option<Addresses>, Option<Refusal>) {
    let mut octets = [0; 74];
    octets.copy_from_slice(V6);
    if place < 74 {
        octets[place] = byte;
    }
    match Datagram::parse_v6(&octets) {
        Ok(datagram) => (Some(datagram.addresses), None),
        Err(refusal) => (None, Some(refusal)),
    }
}

#[test]
fn headers_that_extend_ipv6() {
    let rows = [
        // Of version 4; a fragment instead of options and behind them; a header longer than the datagram.
        (0, 0x40, None, Some(Refusal::Version(4))),
        (
            6,
            44,
            None,
            Some(Refusal::Fragment(fragment_v6(
                IpProtocol::Ipv6Route,
                0x0000_0100,
                0x0500,
                false,
            ))),
        ),
        (
            40,
            44,
            None,
            Some(Refusal::Fragment(fragment_v6(
                IpProtocol::Icmpv6,
                0,
                0,
                true,
            ))),
        ),
        (41, 4, None, Some(Refusal::Extension(IpProtocol::HopByHop))),
        (49, 3, None, Some(Refusal::Extension(IpProtocol::Ipv6Route))),
        // The payload length is 0 before hop-by-hop options.
        (5, 0, None, Some(Refusal::Jumbogram)),
        // No room is left for the header of a fragment.
        (48, 44, None, Some(Refusal::Extension(IpProtocol::Ipv6Frag))),
        // No segments are left; of types 2 and 4 the address is the same one, of type 1 none is known.
        (51, 0, Some(2), None),
        (50, 2, Some(3), None),
        (50, 4, Some(3), None),
        (50, 1, Some(2), None),
        // Destination options behind the hop-by-hop ones lead nowhere else.
        (40, 60, Some(2), None),
    ];
    for (place, byte, last, refusal) in rows {
        let want = match last {
            Some(last) => Some(Addresses::V6(
                Ipv6Address::new(0x2001, 0x0db8, 0, 0, 0, 0, 0, 1),
                Ipv6Address::new(0x2001, 0x0db8, 0, 0, 0, 0, 0, last),
            )),
            None => None,
        };
        same_of((place, byte), answer_of(place, byte), (want, refusal));
    }
}

// An atomic fragment behind hop-by-hop options: at offset 0 with no more fragments, two reserved bits set, which do not
// count, and a reserved byte that is no length. It is followed by destination options, one byte of ICMPv6, and padding.
const ATOMIC: &[u8] = &[
    0x60, 0, 0, 0, 0x00, 0x19, 0x00, 0x40, //
    0x20, 0x01, 0x0d, 0xb8, 0, 0, 0, 0, 0, 0, 0, 0, 0, 0, 0, 1, //
    0x20, 0x01, 0x0d, 0xb8, 0, 0, 0, 0, 0, 0, 0, 0, 0, 0, 0, 2, //
    44, 0, 0x05, 0x02, 0x00, 0x00, 0x01, 0x00, //
    60, 0x07, 0x00, 0x06, 0xfa, 0xce, 0xb0, 0x0c, //
    58, 0, 0x01, 0x04, 0, 0, 0, 0, //
    0x80, 0xff,
];

#[test]
fn an_atomic_fragment_is_a_whole_datagram() {
    let want = Datagram {
        addresses: head_v6().addresses,
        protocol: IpProtocol::Icmpv6,
        hop_limit: 64,
        hop_by_hop: Some(&[0x05, 0x02, 0, 0, 0x01, 0x00]),
        payload: &[0x80],
    };
    same_of("whole", Datagram::parse_v6(ATOMIC), Ok(want));
    let captured = Captured {
        datagram: Datagram {
            payload: &[],
            ..want
        },
        extent: Extent::Cut { missing: 1 },
    };
    let read = Captured::parse_v6(&ATOMIC[..64]);
    same_of("cut behind it", read, Ok(captured));
    for len in 49..64 {
        let read = Captured::parse_v6(&ATOMIC[..len]);
        same_of(len, read, Err(Refusal::Cut(head_v6())));
    }
    // The flag of more fragments, the lowest bit of the offset, and its highest one.
    let rows = [
        (51, 0x07, 0, true),
        (51, 0x08, 8, false),
        (50, 0x80, 0x8000, false),
    ];
    for (place, byte, frag_offset, more_frags) in rows {
        let mut octets = [0; 66];
        octets.copy_from_slice(ATOMIC);
        octets[place] = byte;
        let fragment = fragment_v6(IpProtocol::Ipv6Opts, 0xface_b00c, frag_offset, more_frags);
        let read = Datagram::parse_v6(&octets);
        same_of((place, byte), read, Err(Refusal::Fragment(fragment)));
    }
}

// A report that adds ff02::db8 to what a host listens to, with the router alert option (RFC 3810 section 5).
const REPORT: &[u8] = &[
    0x60, 0, 0, 0, 0x00, 0x24, 0x00, 0x01, //
    0xfe, 0x80, 0, 0, 0, 0, 0, 0, 0, 0, 0, 0, 0, 0, 0, 1, //
    0xff, 0x02, 0, 0, 0, 0, 0, 0, 0, 0, 0, 0, 0, 0, 0, 0x16, //
    0x3a, 0x00, 0x05, 0x02, 0x00, 0x00, 0x01, 0x00, //
    0x8f, 0x00, 0x62, 0x52, 0, 0, 0, 1, 0x04, 0, 0, 0, //
    0xff, 0x02, 0, 0, 0, 0, 0, 0, 0, 0, 0, 0, 0, 0, 0x0d, 0xb8,
];

// Hop-by-hop options after destination options, where they are not allowed, and one byte of ICMPv6.
const MISPLACED: &[u8] = &[
    0x60, 0, 0, 0, 0x00, 0x11, 0x3c, 0x40, //
    0xfe, 0x80, 0, 0, 0, 0, 0, 0, 0, 0, 0, 0, 0, 0, 0, 1, //
    0xff, 0x02, 0, 0, 0, 0, 0, 0, 0, 0, 0, 0, 0, 0, 0, 0x16, //
    0x00, 0x00, 0x01, 0x04, 0, 0, 0, 0, //
    0x3a, 0x00, 0x05, 0x02, 0x00, 0x00, 0x01, 0x00, //
    0x80,
];

// Sixteen bytes of hop-by-hop header, eight more of a second one, one byte of ICMPv6, and a byte of padding.
const TWICE: &[u8] = &[
    0x60, 0, 0, 0, 0x00, 0x19, 0x00, 0x40, //
    0xfe, 0x80, 0, 0, 0, 0, 0, 0, 0, 0, 0, 0, 0, 0, 0, 1, //
    0xff, 0x02, 0, 0, 0, 0, 0, 0, 0, 0, 0, 0, 0, 0, 0, 0x16, //
    0x00, 0x01, 0x05, 0x02, 0x00, 0x02, 0x01, 0x08, 0, 0, 0, 0, 0, 0, 0, 0, //
    0x3a, 0x00, 0x05, 0x02, 0x00, 0x00, 0x01, 0x00, //
    0x80, 0xff,
];

#[test]
fn hop_by_hop_options_stand_behind_the_fixed_header_alone() {
    const ROWS: &[(&[u8], Option<&[u8]>, usize)] = &[
        (REPORT, Some(&[0x05, 0x02, 0, 0, 0x01, 0x00]), 28),
        (MISPLACED, None, 1),
        (
            TWICE,
            Some(&[0x05, 0x02, 0, 2, 0x01, 0x08, 0, 0, 0, 0, 0, 0, 0, 0]),
            1,
        ),
    ];
    for &(octets, options, len) in ROWS {
        let read = match Datagram::parse_v6(octets) {
            Ok(datagram) => Some((
                datagram.protocol,
                datagram.hop_by_hop,
                datagram.payload.len(),
            )),
            Err(_) => None,
        };
        same_of(len, read, Some((IpProtocol::Icmpv6, options, len)));
    }
}

// The datagram of IPv4 as far as it is there, with this payload.
fn captured_v4(payload: &'static [u8], extent: Extent) -> Captured<'static> {
    Captured {
        datagram: Datagram {
            addresses: head_v4(0, false).addresses,
            protocol: IpProtocol::Icmp,
            hop_limit: 1,
            hop_by_hop: None,
            payload,
        },
        extent,
    }
}

#[test]
fn a_datagram_of_ipv4_that_is_captured_in_part() {
    let head = head_v4(0, false);
    for len in 0..28 {
        let want = match len {
            0..=19 => Err(Refusal::Short),
            20..=23 => Err(Refusal::Cut(head)),
            24 => Ok(captured_v4(&[], Extent::Cut { missing: 1 })),
            _ => Ok(captured_v4(&[0x08], Extent::Whole)),
        };
        let end = if len < 27 { len } else { 27 };
        same_of(len, Captured::parse_v4(&V4[..end]), want);
    }
    let rows = [
        // No length is stated; more is than the octets have; a fragment, whole and cut; of version 6.
        (
            3,
            0x00,
            27,
            Ok(captured_v4(&[0x08, 0, 0], Extent::Unstated)),
        ),
        (3, 0x00, 22, Err(Refusal::Cut(head))),
        (3, 0x17, 27, Err(Refusal::TotalLen(23))),
        (
            3,
            0x1c,
            27,
            Ok(captured_v4(&[0x08, 0, 0], Extent::Cut { missing: 1 })),
        ),
        (6, 0x20, 27, Err(Refusal::Fragment(head_v4(0, true)))),
        (7, 0x02, 24, Err(Refusal::Fragment(head_v4(16, false)))),
        (0, 0x66, 24, Err(Refusal::Version(6))),
    ];
    for (place, byte, len, want) in rows {
        let octets = changed(place, byte);
        same_of((place, byte), Captured::parse_v4(&octets[..len]), want);
    }
}

#[test]
fn a_datagram_of_ipv6_that_is_captured_in_part() {
    for len in 0..75 {
        let want = match len {
            0..=39 => Err(Refusal::Short),
            40..=71 => Err(Refusal::Cut(head_v6())),
            72 => Ok((0, Extent::Cut { missing: 1 })),
            _ => Ok((1, Extent::Whole)),
        };
        let end = if len < 74 { len } else { 74 };
        let read = match Captured::parse_v6(&V6[..end]) {
            Ok(captured) => Ok((captured.datagram.payload.len(), captured.extent)),
            Err(refusal) => Err(refusal),
        };
        same_of(len, read, want);
    }
    let mut octets = [0; 74];
    octets.copy_from_slice(V6);
    octets[6] = 44;
    let fragment = fragment_v6(IpProtocol::Ipv6Route, 0x0000_0100, 0x0500, false);
    let read = Captured::parse_v6(&octets[..48]);
    same_of(48, read, Err(Refusal::Fragment(fragment)));
}
