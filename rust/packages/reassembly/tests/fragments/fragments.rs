// Made from crates/tests_reassembly/src/fragments.rt by rust/erase.
use crate::testing::same_of;
use control_wire::frames::Addresses;
use control_wire::{IpProtocol, Ipv4Address, Ipv6Address};
#[allow(unused_imports)]
use rattle_std::prelude::*;
use reassembly::Fragment;

// The last fragment of a datagram of IPv4, with a router alert option, five bytes of UDP, and padding of a frame.
const V4: &[u8] = &[
    0x46, 0x00, 0x00, 0x1d, 0x12, 0x34, 0x00, 0x02, 0x40, 0x11, 0x00, 0x00, 192, 0, 2, 1, 192, 0,
    2, 2, //
    0x94, 0x04, 0x00, 0x00, 1, 2, 3, 4, 5, 0, 0,
];

// A fragment of IPv6 at offset 8 of which more follow, behind a hop-by-hop header and a routing header of type 2 with a
// segment left, whose next header is one of options.
const V6: &[u8] = &[
    0x60, 0, 0, 0, 0, 48, 0, 64, 0xfe, 0x80, 0, 0, 0, 0, 0, 0, 0, 0, 0, 0, 0, 0, 0, 1, 0xfe, 0x80,
    0, 0, 0, 0, 0, 0, 0, 0, 0, 0, 0, 0, 0, 2, //
    43, 0, 5, 2, 0, 0, 1, 0, //
    44, 2, 2, 1, 0, 0, 0, 0, 0xfe, 0x80, 0, 0, 0, 0, 0, 0, 0, 0, 0, 0, 0, 0, 0, 3, //
    60, 0, 0x00, 0x09, 0xde, 0xad, 0xbe, 0xef, //
    1, 2, 3, 4, 5, 6, 7, 8, 9,
];

#[test]
fn a_fragment_of_ipv4() {
    let want = Fragment {
        addresses: Addresses::V4(
            Ipv4Address::new(192, 0, 2, 1),
            Ipv4Address::new(192, 0, 2, 2),
        ),
        protocol: IpProtocol::Udp,
        ident: 0x1234,
        frag_offset: 16,
        more_frags: false,
        hop_by_hop: None,
        payload: &[1, 2, 3, 4, 5],
    };
    for len in 0..V4.len() + 1 {
        let wanted = if len < 29 { None } else { Some(want) };
        same_of(len, Fragment::parse_v4(&V4[..len]), wanted);
    }
    same_of((), Fragment::parse_v6(V4), None);
}

#[test]
fn a_fragment_of_ipv6() {
    let mut last = [0; 16];
    last[..2].copy_from_slice(&[0xfe, 0x80]);
    let mut source = last;
    source[15] = 1;
    last[15] = 3;
    let want = Fragment {
        addresses: Addresses::V6(
            Ipv6Address::from_octets(source),
            Ipv6Address::from_octets(last),
        ),
        protocol: IpProtocol::Ipv6Opts,
        ident: 0xdead_beef,
        frag_offset: 8,
        more_frags: true,
        hop_by_hop: Some(&[5, 2, 0, 0, 1, 0]),
        payload: &[1, 2, 3, 4, 5, 6, 7, 8],
    };
    for len in 0..V6.len() + 1 {
        let wanted = if len < 88 { None } else { Some(want) };
        same_of(len, Fragment::parse_v6(&V6[..len]), wanted);
    }
    same_of((), Fragment::parse_v4(V6), None);
}

// An atomic fragment, a fragment header that is cut, and a datagram that is no fragment.
#[test]
fn what_is_no_fragment() {
    let mut octets = [0; 56];
    octets[..8].copy_from_slice(&[0x60, 0, 0, 0, 0, 16, 44, 64]);
    octets[40..48].copy_from_slice(&[17, 0, 0, 0, 0, 0, 0, 1]);
    same_of((), Fragment::parse_v6(&octets), None);
    octets[43] = 1;
    same_of((), Fragment::parse_v6(&octets).is_some(), true);
    octets[5] = 7;
    same_of((), Fragment::parse_v6(&octets), None);
    octets[5] = 16;
    octets[6] = 17;
    same_of((), Fragment::parse_v6(&octets), None);
    let mut octets = [0; 29];
    octets.copy_from_slice(&V4[..29]);
    octets[7] = 0;
    same_of((), Fragment::parse_v4(&octets), None);
    octets[6] = 0x20;
    same_of((), Fragment::parse_v4(&octets).is_some(), true);
}

// Hop-by-hop options behind destination options, where they are not allowed, are passed; two headers of them, where the
// first alone counts, of 16 bytes.
#[test]
fn options_stand_behind_the_fixed_header_alone() {
    const FRAGMENT: &[u8] = &[17, 0, 0, 1, 0, 0, 0, 1, 1, 2, 3, 4, 5, 6, 7, 8];
    const ROWS: &[(u8, &[u8], Option<&[u8]>)] = &[
        (44, &[], None),
        (60, &[0, 0, 1, 4, 0, 0, 0, 0, 44, 0, 5, 2, 0, 0, 1, 0], None),
        (
            0,
            &[
                0, 1, 1, 12, 0, 0, 0, 0, 0, 0, 0, 0, 0, 0, 0, 9, 44, 0, 5, 2, 0, 0, 1, 0,
            ],
            Some(&[1, 12, 0, 0, 0, 0, 0, 0, 0, 0, 0, 0, 0, 9]),
        ),
    ];
    for (first, headers, want) in ROWS {
        let mut octets = Vec::new();
        let _ = octets.extend_from_slice(&[0x60, 0, 0, 0, 0, headers.len() as u8 + 16, *first, 64]);
        let _ = octets.extend_from_slice(&[0; 32]);
        let _ = octets.extend_from_slice(headers);
        let _ = octets.extend_from_slice(FRAGMENT);
        let options = Fragment::parse_v6(octets.as_slice()).map(|fragment| fragment.hop_by_hop);
        same_of(first, options, Some(*want));
    }
}
