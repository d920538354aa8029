// Made from crates/tests_headers/src/fragments.rt by rust/erase.
//! Fragment headers of IPv6 as tcpdump shows them, and the parts of payloads: those of RFC 791 appendix A, and those
//! that Linux sends.

#[allow(unused_imports)]
use crate::rattle_std::prelude::*;
use crate::rattle_std::test::Fail;
use crate::testing::{prints, same, same_of, takes_writes};
use control_wire::IpProtocol;
use control_wire::headers::fragments::MAX_PAYLOAD_LEN;
use control_wire::headers::ipv6_fragment::{Header, LEN, Refusal};
use control_wire::headers::{Fragment, Fragments};

// The octets of a buffer before it is written into.
const FILLS: &[u8] = &[0x00, 0xff, 0x2a, 0xa5];

// Checks that a header before a payload is read and prints this, and is written over the front of any octets.
fn check(octets: &[u8; LEN], header: Header, text: &str) {
    let mut packet = [0x5a; 20];
    packet[..LEN].copy_from_slice(octets);
    same(Header::parse(&packet), Ok((header, &[0x5a; 12][..])));
    same(Header::parse(octets), Ok((header, &[][..])));
    prints(&header, text);
    same(header.buffer_len(), LEN);
    for &fill in FILLS {
        let mut written = [fill; 10];
        header.emit_into(&mut written);
        let mut wanted = [fill; 10];
        wanted[..LEN].copy_from_slice(octets);
        same_of(fill, written, wanted);
    }
}

// The header of a fragment of a message of ICMPv6.
fn fragment(frag_offset: u16, more_frags: bool, ident: u32) -> Header {
    Header {
        next_header: IpProtocol::Icmpv6,
        frag_offset,
        more_frags,
        ident,
    }
}

#[test]
fn headers_of_fragments() {
    // Three of one packet, the last of another, and the greatest numbers.
    check(
        &[0x3a, 0x00, 0x00, 0x01, 0x37, 0x32, 0xd8, 0x69],
        fragment(0, true, 0x3732d869),
        "next_header=ICMPv6 ident=926079081 more_frags=true offset=0",
    );
    check(
        &[0x3a, 0x00, 0x05, 0xa9, 0x37, 0x32, 0xd8, 0x69],
        fragment(181, true, 0x3732d869),
        "next_header=ICMPv6 ident=926079081 more_frags=true offset=181",
    );
    check(
        &[0x3a, 0x00, 0x0b, 0x50, 0x37, 0x32, 0xd8, 0x69],
        fragment(362, false, 0x3732d869),
        "next_header=ICMPv6 ident=926079081 more_frags=false offset=362",
    );
    check(
        &[0x3a, 0x00, 0x05, 0xa8, 0x82, 0x9a, 0x60, 0xd7],
        fragment(181, false, 0x829a60d7),
        "next_header=ICMPv6 ident=2191155415 more_frags=false offset=181",
    );
    let greatest = Header {
        next_header: IpProtocol::Unknown(0xff),
        frag_offset: 8191,
        more_frags: true,
        ident: 0xffffffff,
    };
    check(
        &[0xff, 0x00, 0xff, 0xf9, 0xff, 0xff, 0xff, 0xff],
        greatest,
        "next_header=0xff ident=4294967295 more_frags=true offset=8191",
    );
}

// They are not looked at, and are written as zeros (RFC 8200 section 4.5).
#[test]
fn reserved_bits_of_fragment_headers() {
    let octets = [0x3a, 0xff, 0x05, 0xae, 0x82, 0x9a, 0x60, 0xd7];
    let header = fragment(181, false, 0x829a60d7);
    same(Header::parse(&octets), Ok((header, &[][..])));
}

#[test]
fn what_is_refused_of_fragments() {
    let octets = [0x3a; LEN];
    for len in 0..LEN {
        same_of(len, Header::parse(&octets[..len]), Err(Refusal::Short));
    }
    prints(&Refusal::Short, "fewer than 8 bytes");
    takes_writes(&Refusal::Short, 1);
}

// Checks that a payload has these parts, by their offsets, whether others follow, and their lengths.
fn check_parts(payload: &[u8], room: usize, wanted: &[(u16, bool, usize)]) {
    let Some(mut parts) = Fragments::new(payload, room) else {
        return same_of(room, false, true);
    };
    let mut rest = payload;
    for &(frag_offset, more_frags, len) in wanted {
        same_of(room, len <= rest.len(), true);
        let (part, behind) = rest.split_at(len);
        rest = behind;
        let wanted = Fragment {
            frag_offset,
            more_frags,
            part,
        };
        same_of(room, parts.next(), Some(wanted));
    }
    same_of(room, parts.next(), None);
    same_of(room, parts.next(), None);
    same_of(room, rest, &[]);
}

#[test]
fn parts_of_payloads() {
    let mut octets = [0; 3008];
    for (place, octet) in octets.iter_mut().enumerate() {
        *octet = (place % 251) as u8;
    }
    // The bytes of a payload, and how many a fragment has room for.
    let rows: &[(usize, usize, &[(u16, bool, usize)])] = &[
        // RFC 791 appendix A, example 2: 280 bytes are all of a packet, its header too.
        (452, 260, &[(0, true, 256), (32, false, 196)]),
        // An echo request of 3,000 bytes over links of 1,500: their headers take 48.
        (
            3008,
            1452,
            &[(0, true, 1448), (181, true, 1448), (362, false, 112)],
        ),
        (0, 8, &[(0, false, 0)]),
        (1, 8, &[(0, false, 1)]),
        (8, 8, &[(0, false, 8)]),
        (9, 8, &[(0, true, 8), (1, false, 1)]),
        (15, 15, &[(0, false, 15)]),
        (16, 15, &[(0, true, 8), (1, false, 8)]),
        (23, 15, &[(0, true, 8), (1, false, 15)]),
        (24, 15, &[(0, true, 8), (1, true, 8), (2, false, 8)]),
        (3008, 65_536, &[(0, false, 3008)]),
    ];
    for &(len, room, wanted) in rows {
        let Some(payload) = octets.get(..len) else {
            same_of(len, false, true);
            continue;
        };
        check_parts(payload, room, wanted);
    }
}

#[test]
fn the_greatest_payload_in_the_smallest_parts() {
    let octets = [0x5a; MAX_PAYLOAD_LEN];
    let Some(mut parts) = Fragments::new(&octets, 8) else {
        return same(false, true);
    };
    for frag_offset in 0..8192 {
        let more_frags = frag_offset < 8191;
        let len = if more_frags { 8 } else { 7 };
        let wanted = Fragment {
            frag_offset,
            more_frags,
            part: &octets[..len],
        };
        same_of(frag_offset, parts.next(), Some(wanted));
    }
    same(parts.next(), None);
}

// Ends the test unless exactly these are left.
fn are_left(mut parts: Fragments<'_>, wanted: &[Fragment<'_>]) {
    for &part in wanted {
        same(parts.next(), Some(part));
    }
    same(parts.next(), None);
}

#[test]
fn a_copy_of_fragments_gives_the_same_rest() -> Result<(), Fail> {
    let payload = b"the 1st,the 2nd,the end";
    let wanted = &[
        Fragment {
            frag_offset: 0,
            more_frags: true,
            part: b"the 1st,",
        },
        Fragment {
            frag_offset: 1,
            more_frags: true,
            part: b"the 2nd,",
        },
        Fragment {
            frag_offset: 2,
            more_frags: false,
            part: b"the end",
        },
    ];
    let Some(mut parts) = Fragments::new(payload, 8) else {
        same(false, true);
        return Ok(());
    };
    are_left(parts.try_clone()?, wanted);
    same(parts.next(), Some(wanted[0]));
    are_left(parts.try_clone()?, &wanted[1..]);
    same(parts.next(), Some(wanted[1]));
    are_left(parts.try_clone()?, &wanted[2..]);
    same(parts.next(), Some(wanted[2]));
    are_left(parts.try_clone()?, &[]);
    are_left(parts, &[]);
    Ok(())
}

#[test]
fn what_is_refused_of_payloads() {
    let octets = [0x5a; MAX_PAYLOAD_LEN + 1];
    for room in 0..8 {
        same_of(room, Fragments::new(&octets[..8], room).is_none(), true);
    }
    same(Fragments::new(&octets, 1480).is_none(), true);
}
