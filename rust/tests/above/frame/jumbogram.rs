// Made from crates/tests_above/src/frame/jumbogram.rt by rust/erase.
use crate::testing::same_of;
use control_wire::frames::datagram::{Addresses, Captured, Datagram, Extent, Head, Refusal};
use control_wire::frames::udp::{self, CapturedUdp, UdpPacket, UdpRepr};
use control_wire::{ChecksumCapabilities, IpProtocol, Ipv6Address};

// The start of a jumbogram of UDP, with the option of RFC 2675 section 2 in a hop-by-hop header of 8 bytes; its number
// is zero yet.
const START: &[u8] = &[
    0x60, 0, 0, 0, 0x00, 0x00, 0x00, 0x40, //
    0x20, 0x01, 0x0d, 0xb8, 0, 0, 0, 0, 0, 0, 0, 0, 0, 0, 0, 1, //
    0x20, 0x01, 0x0d, 0xb8, 0, 0, 0, 0, 0, 0, 0, 0, 0, 0, 0, 2, //
    0x11, 0x00, 0xc2, 0x04, 0x00, 0x00, 0x00, 0x00,
];

fn addresses() -> Addresses {
    Addresses::V6(
        Ipv6Address::new(0x2001, 0x0db8, 0, 0, 0, 0, 0, 1),
        Ipv6Address::new(0x2001, 0x0db8, 0, 0, 0, 0, 0, 2),
    )
}

// What is told where it is cut: its fixed header.
fn cut() -> Refusal {
    Refusal::Cut(Head {
        addresses: addresses(),
        protocol: IpProtocol::HopByHop,
        ident: None,
        frag_offset: 0,
        more_frags: false,
    })
}

// The jumbogram with this number, and bytes of zero after its header.
fn jumbogram(number: u32) -> [u8; 65_577] {
    let mut octets = [0; 65_577];
    octets[..48].copy_from_slice(START);
    octets[44..48].copy_from_slice(&number.to_be_bytes());
    octets
}

// The first octets, as many as this where there are more.
fn front(octets: &[u8], len: usize) -> &[u8] {
    if len < octets.len() {
        &octets[..len]
    } else {
        octets
    }
}

// How the octets are read: the bytes of the payload.
fn payload_len(octets: &[u8]) -> Result<usize, Refusal> {
    match Datagram::parse_v6(octets) {
        Ok(datagram) => Ok(datagram.payload.len()),
        Err(refusal) => Err(refusal),
    }
}

// How they are read as far as they were captured: the bytes of the payload, and how much is there.
fn captured_len(octets: &[u8]) -> Result<(usize, Extent), Refusal> {
    match Captured::parse_v6(octets) {
        Ok(captured) => Ok((captured.datagram.payload.len(), captured.extent)),
        Err(refusal) => Err(refusal),
    }
}

// Of 65,536 bytes after the fixed header, with a byte of padding behind them.
#[test]
fn a_jumbogram_of_65536_bytes() {
    let octets = jumbogram(65_536);
    let want = Datagram {
        addresses: addresses(),
        protocol: IpProtocol::Udp,
        hop_limit: 64,
        hop_by_hop: Some(&[0xc2, 0x04, 0x00, 0x01, 0x00, 0x00]),
        payload: &octets[48..65_576],
    };
    same_of("whole", Datagram::parse_v6(&octets), Ok(want));
    same_of("exact", Datagram::parse_v6(&octets[..65_576]), Ok(want));
    let read = payload_len(&octets[..65_575]);
    same_of("cut", read, Err(cut()));

    let rows = [
        (65_577, Ok((65_528, Extent::Whole))),
        (65_576, Ok((65_528, Extent::Whole))),
        (65_575, Ok((65_527, Extent::Cut { missing: 1 }))),
        (64, Ok((16, Extent::Cut { missing: 65_512 }))),
        (48, Ok((0, Extent::Cut { missing: 65_528 }))),
        // The header with the length is cut too.
        (47, Err(cut())),
        (40, Err(cut())),
        (39, Err(Refusal::Short)),
    ];
    for (len, want) in rows {
        same_of(len, captured_len(front(&octets, len)), want);
    }
}

// What a jumbogram has to be longer than, and the longest one.
#[test]
fn lengths_of_jumbograms() {
    let rows = [
        (0, Err(Refusal::Jumbogram), Err(Refusal::Jumbogram)),
        (65_535, Err(Refusal::Jumbogram), Err(Refusal::Jumbogram)),
        (65_536, Ok(65_528), Ok((65_528, Extent::Whole))),
        (65_537, Ok(65_529), Ok((65_529, Extent::Whole))),
        (65_538, Err(cut()), Ok((65_529, Extent::Cut { missing: 1 }))),
        (
            0xffff_ffff,
            Err(cut()),
            Ok((
                65_529,
                Extent::Cut {
                    missing: 0xffff_ffff - 65_537,
                },
            )),
        ),
    ];
    for (number, whole, captured) in rows {
        let octets = jumbogram(number);
        same_of(number, payload_len(&octets), whole);
        same_of(number, captured_len(&octets), captured);
    }
}

// The start of a datagram with another hop-by-hop header, of 16 bytes at most, and how it is read of 65,577 bytes.
fn with_header(header: &[u8]) -> Result<usize, Refusal> {
    let mut octets = jumbogram(0);
    if header.len() <= 16 {
        octets[40..40 + header.len()].copy_from_slice(header);
    }
    payload_len(&octets)
}

#[test]
fn options_of_jumbograms() {
    // The bytes of the payload, or None where they are refused.
    const ROWS: &[(&[u8], Option<usize>)] = &[
        // A PadN of four bytes and two Pad1 stand before the option; one of another type does.
        (
            &[17, 1, 1, 4, 0, 0, 0, 0, 0, 0, 0xc2, 4, 0, 1, 0, 0],
            Some(65_520),
        ),
        (
            &[17, 1, 0x1e, 6, 0xc2, 4, 0, 1, 0, 0, 0xc2, 4, 0, 1, 0, 1],
            Some(65_521),
        ),
        // Of two such options the first counts.
        (
            &[17, 1, 0xc2, 4, 0, 1, 0, 0, 0, 0, 0xc2, 4, 0, 1, 0, 1],
            Some(65_520),
        ),
        (
            &[17, 1, 0xc2, 4, 0, 0, 0, 1, 0, 0, 0xc2, 4, 0, 1, 0, 1],
            None,
        ),
        // There is none; its length is 5, or 3; it goes on past the header, or an option before it does; it stands
        // behind the header.
        (&[17, 0, 1, 4, 0, 0, 0, 0], None),
        (&[17, 0, 0, 0, 0, 0, 0, 0], None),
        (&[17, 1, 0xc2, 5, 0, 1, 0, 0, 0, 0, 0, 0, 0, 0, 0, 0], None),
        (&[17, 0, 0xc2, 3, 1, 0, 0, 0], None),
        (&[17, 0, 0, 0xc2, 4, 0, 1, 0, 0, 0, 0, 0], None),
        (&[17, 0, 1, 5, 0, 0, 0, 0, 0, 0xc2, 4, 0, 1, 0, 0], None),
        (&[17, 0, 1, 4, 0, 0, 0, 0, 0xc2, 4, 0, 1, 0, 0], None),
    ];
    for &(header, want) in ROWS {
        let want = want.ok_or(Refusal::Jumbogram);
        same_of(header, with_header(header), want);
    }
}

// A fragment header, which a jumbogram may not have (RFC 2675 section 3): atomic, of a first fragment, and of a later
// one; behind destination options; and cut, where the bytes end within it.
#[test]
fn jumbograms_in_fragments() {
    let mut octets = jumbogram(65_536);
    octets[40] = 44;
    octets[48] = 17;
    for flags in [0x00, 0x01, 0x08] {
        octets[51] = flags;
        same_of(flags, payload_len(&octets), Err(Refusal::Jumbogram));
        let captured = captured_len(front(&octets, 64));
        same_of(flags, captured, Err(Refusal::Jumbogram));
    }
    let captured = captured_len(front(&octets, 50));
    same_of("cut", captured, Err(Refusal::Jumbogram));
    octets[40] = 60;
    octets[48] = 44;
    let behind = payload_len(&octets);
    same_of("behind options", behind, Err(Refusal::Jumbogram));
    octets[48] = 17;
    same_of("options alone", payload_len(&octets), Ok(65_520));
    let captured = captured_len(front(&octets, 50));
    same_of("options cut", captured, Err(cut()));
}

// Before other headers a payload length of 0 counts no bytes.
#[test]
fn a_payload_length_of_0_before_other_headers() {
    let mut octets = jumbogram(65_536);
    for (next_header, want) in [
        (17, Ok(0)),
        (59, Ok(0)),
        (60, Err(Refusal::Extension(IpProtocol::Ipv6Opts))),
        (43, Err(Refusal::Extension(IpProtocol::Ipv6Route))),
        (44, Err(Refusal::Extension(IpProtocol::Ipv6Frag))),
    ] {
        octets[6] = next_header;
        same_of(next_header, payload_len(&octets), want);
    }
    // Before a hop-by-hop header any other length is that of the datagram, whatever the option says.
    octets[6] = 0;
    octets[5] = 9;
    same_of("9", payload_len(&octets), Ok(1));
}

// A UDP datagram of 65,536 bytes, whose length field is 0 (RFC 2675 section 4), and whose checksum counts that length;
// it holds where the last byte is 0.
fn udp_datagram(last: u8) -> [u8; 65_536] {
    let mut octets = [0; 65_536];
    octets[..8].copy_from_slice(&[0x03, 0xe8, 0x07, 0xd0, 0x00, 0x00, 0x98, 0xc0]);
    octets[65_535] = last;
    octets
}

// How its ports are read.
fn ports(octets: &[u8], addresses: &Addresses) -> Result<UdpRepr, udp::Refusal> {
    let packet = UdpPacket::new_unchecked(octets);
    UdpRepr::parse_or_refusal(&packet, addresses, &ChecksumCapabilities::default())
}

#[test]
fn udp_in_a_jumbogram() {
    let octets = udp_datagram(0);
    let want = UdpRepr {
        src_port: 1000,
        dst_port: 2000,
    };
    same_of("whole", ports(&octets, &addresses()), Ok(want));
    let captured = CapturedUdp::parse(&octets);
    let len = captured.map(|captured| captured.payload.len());
    same_of("data", len, Ok(65_528));
    let read = ports(&udp_datagram(1), &addresses());
    same_of("changed", read, Err(udp::Refusal::Checksum));
    // Fewer bytes have a length that their field can hold, and it is not 0.
    let cut = CapturedUdp::parse(front(&octets, 65_535)).err();
    same_of("cut", cut, Some(udp::Refusal::Length(0)));
}

// The same datagram behind the headers of a jumbogram.
#[test]
fn a_jumbogram_of_udp() {
    let mut octets = [0; 65_584];
    octets[..48].copy_from_slice(START);
    octets[44..48].copy_from_slice(&[0x00, 0x01, 0x00, 0x08]);
    octets[48..].copy_from_slice(&udp_datagram(0));
    let read = match Datagram::parse_v6(&octets) {
        Ok(datagram) => ports(datagram.payload, &datagram.addresses).is_ok(),
        Err(_) => false,
    };
    same_of("whole", read, true);
}
