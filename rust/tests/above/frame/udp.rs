// Made from crates/tests_above/src/frame/udp.rt by rust/erase.
use crate::testing::{prints, same_of};
use control_wire::frames::datagram::{Addresses, Extent};
use control_wire::frames::udp::{CapturedUdp, Refusal, UdpPacket, UdpRepr};
use control_wire::{ChecksumCapabilities, Ipv4Address, Ipv6Address};

// Three bytes of data to the port of DNS, with the checksum of each pseudo header.
const V4: &[u8] = &[
    0xc0, 0x00, 0x00, 0x35, 0x00, 0x0b, 0xa8, 0x37, 0x12, 0x34, 0x01,
];

const V6: &[u8] = &[
    0xc0, 0x00, 0x00, 0x35, 0x00, 0x0b, 0xd0, 0xc6, 0x12, 0x34, 0x01,
];

// Without a checksum.
const NONE: &[u8] = &[
    0xc0, 0x00, 0x00, 0x35, 0x00, 0x0b, 0x00, 0x00, 0x12, 0x34, 0x01,
];

// Two bytes of data whose checksum comes to 0, over either, written as 0 and as 0xffff.
const ZERO_V4: &[u8] = &[0xc0, 0x00, 0x00, 0x35, 0x00, 0x0a, 0x00, 0x00, 0xbb, 0x6d];

const ONES_V4: &[u8] = &[0xc0, 0x00, 0x00, 0x35, 0x00, 0x0a, 0xff, 0xff, 0xbb, 0x6d];

const ZERO_V6: &[u8] = &[0xc0, 0x00, 0x00, 0x35, 0x00, 0x0a, 0x00, 0x00, 0xe3, 0xfc];

const ONES_V6: &[u8] = &[0xc0, 0x00, 0x00, 0x35, 0x00, 0x0a, 0xff, 0xff, 0xe3, 0xfc];

fn over_v4() -> Addresses {
    Addresses::V4(
        Ipv4Address::new(192, 0, 2, 1),
        Ipv4Address::new(192, 0, 2, 53),
    )
}

fn over_v6() -> Addresses {
    Addresses::V6(
        Ipv6Address::new(0x2001, 0x0db8, 0, 0, 0, 0, 0, 1),
        Ipv6Address::new(0x2001, 0x0db8, 0, 0, 0, 0, 0, 0x35),
    )
}

#[test]
fn fields_of_a_datagram() {
    let packet = UdpPacket::new_checked(V4);
    match packet {
        Ok(packet) => {
            same_of(V4, packet.src_port(), 49152);
            same_of(V4, packet.dst_port(), 53);
            same_of(V4, packet.len(), 11);
            same_of(V4, packet.checksum(), 0xa837);
            same_of(V4, packet.payload(), &[0x12, 0x34, 0x01]);
            same_of(V4, packet.verify_checksum(&over_v4()), true);
            same_of(V4, packet.verify_checksum(&over_v6()), false);
            same_of(V4, packet == UdpPacket::new_unchecked(V4), true);
            same_of(V4, packet.into_inner(), V4);
        }
        Err(_) => same_of(V4, false, true),
    }
}

#[test]
fn datagrams_with_either_pseudo_header() {
    let both = ChecksumCapabilities::default();
    let ignored = ChecksumCapabilities::ignored();
    let ports = UdpRepr {
        src_port: 49152,
        dst_port: 53,
    };
    let rows = [
        (V4, over_v4(), both, Some(ports)),
        (V6, over_v6(), both, Some(ports)),
        (V4, over_v6(), both, None),
        (V6, over_v4(), both, None),
        (NONE, over_v4(), both, Some(ports)),
        (NONE, over_v6(), both, None),
        (NONE, over_v6(), ignored, Some(ports)),
        (ZERO_V4, over_v4(), both, Some(ports)),
        (ONES_V4, over_v4(), both, Some(ports)),
        (ZERO_V6, over_v6(), both, None),
        (ZERO_V6, over_v6(), ignored, Some(ports)),
        (ONES_V6, over_v6(), both, Some(ports)),
        (&V4[..10], over_v4(), both, None),
        (&V4[..7], over_v4(), ignored, None),
        // To port 0, and with a length below that of a header.
        (&[0xc0, 0, 0, 0, 0, 8, 0, 0], over_v4(), both, None),
        (&[0xc0, 0, 0, 53, 0, 7, 0, 0], over_v4(), both, None),
    ];
    for (octets, addresses, capabilities, want) in rows {
        let read = UdpRepr::parse(&UdpPacket::new_unchecked(octets), &addresses, &capabilities);
        same_of(octets, read.ok(), want);
        let packet = UdpPacket::new_unchecked(octets);
        let told = UdpRepr::parse_or_refusal(&packet, &addresses, &capabilities);
        same_of(octets, told.ok(), want);
    }
    same_of((), ports.header_len(), 8);
}

// What follows the length is no part, and a checksum may be written.
#[test]
fn a_datagram_that_is_written_by_its_setters() {
    let mut octets = [0xa5; 12];
    let mut packet = UdpPacket::new_unchecked(&mut octets[..]);
    packet.set_src_port(49152);
    packet.set_dst_port(53);
    packet.set_len(11);
    packet.set_checksum(0xa837);
    if packet.check_len().is_ok() {
        packet.payload_mut().fill(0x12);
    }
    same_of(
        (),
        &octets[..],
        &[
            0xc0, 0x00, 0x00, 0x35, 0x00, 0x0b, 0xa8, 0x37, 0x12, 0x12, 0x12, 0xa5,
        ],
    );
}

// The octets after a datagram stay. A checksum that comes to 0 is written as 0xffff.
#[test]
fn datagrams_that_are_written() {
    let both = ChecksumCapabilities::default();
    let ignored = ChecksumCapabilities::ignored();
    let ports = UdpRepr {
        src_port: 49152,
        dst_port: 53,
    };
    let rows = [
        (V4, over_v4(), both),
        (V6, over_v6(), both),
        (NONE, over_v4(), ignored),
        (NONE, over_v6(), ignored),
        (ONES_V4, over_v4(), both),
        (ONES_V6, over_v6(), both),
        (ZERO_V6, over_v6(), ignored),
        (
            &[0xc0, 0x00, 0x00, 0x35, 0x00, 0x08, 0xbb, 0x71],
            over_v4(),
            both,
        ),
    ];
    for (want, addresses, capabilities) in rows {
        assert!(want.len() >= 8);
        assert!(want.len() <= 13);
        let mut octets = [0xa5; 13];
        let payload = &want[8..];
        ports.emit_into(payload, &addresses, &mut octets, &capabilities);
        same_of(want, &octets[..want.len()], want);
        same_of(want, &octets[want.len()..], &[0xa5; 13][want.len()..]);
        let packet = UdpPacket::new_unchecked(&octets[..]);
        let read = UdpRepr::parse(&packet, &addresses, &capabilities);
        same_of(want, read.ok(), Some(ports));
    }
}

#[test]
fn refusals_of_datagrams() {
    let both = ChecksumCapabilities::default();
    let ignored = ChecksumCapabilities::ignored();
    let rows = [
        (V4, over_v4(), both, None),
        (NONE, over_v4(), both, None),
        (NONE, over_v6(), ignored, None),
        (V4, over_v6(), both, Some(Refusal::Checksum)),
        (NONE, over_v6(), both, Some(Refusal::NoChecksum)),
        // The sum holds, and 0 still says that there is no checksum.
        (ZERO_V6, over_v6(), both, Some(Refusal::NoChecksum)),
        (ZERO_V6, over_v6(), ignored, None),
        (ONES_V6, over_v6(), both, None),
        (&V4[..10], over_v4(), both, Some(Refusal::Cut(11))),
        (&V4[..7], over_v4(), ignored, Some(Refusal::Short)),
        (
            &[0xc0, 0, 0, 0, 0, 8, 0, 0],
            over_v4(),
            both,
            Some(Refusal::Port),
        ),
        (
            &[0xc0, 0, 0, 53, 0, 7, 0, 0],
            over_v4(),
            both,
            Some(Refusal::Length(7)),
        ),
    ];
    for (octets, addresses, capabilities, want) in rows {
        let packet = UdpPacket::new_unchecked(octets);
        let refusal = UdpRepr::refusal(&packet, &addresses, &capabilities);
        same_of(octets, refusal, want);
        let read = UdpRepr::parse_or_refusal(&packet, &addresses, &capabilities);
        same_of(octets, read.err(), want);
        same_of(
            octets,
            packet.refusal().is_none(),
            packet.check_len().is_ok(),
        );
    }
}

// A reason is told exactly where a datagram is refused: of each front of one, and with each of its bytes changed.
#[test]
fn refusals_of_damaged_datagrams() {
    let both = ChecksumCapabilities::default();
    let addresses = over_v4();
    for place in 0..11 {
        let mut octets = [0; 11];
        octets.copy_from_slice(V4);
        octets[place] ^= 0x55;
        for end in [place, 11] {
            let packet = UdpPacket::new_unchecked(&octets[..end]);
            same_of(
                (place, end),
                UdpRepr::refusal(&packet, &addresses, &both).is_none(),
                UdpRepr::parse(&packet, &addresses, &both).is_ok(),
            );
        }
    }
}

// Each front of a datagram with padding behind it, and one whose length is below that of its header.
#[test]
fn a_datagram_that_is_captured_in_part() {
    const PADDED: &[u8] = &[
        0xc0, 0x00, 0x00, 0x35, 0x00, 0x0b, 0xa8, 0x37, 0x12, 0x34, 0x01, 0xff,
    ];
    let captured = |payload, extent| CapturedUdp {
        src_port: 49152,
        dst_port: 53,
        payload,
        extent,
    };
    for len in 0..13 {
        let want = match len {
            0..=7 => Err(Refusal::Short),
            8 => Ok(captured(&[][..], Extent::Cut { missing: 3 })),
            9 => Ok(captured(&[0x12][..], Extent::Cut { missing: 2 })),
            10 => Ok(captured(&[0x12, 0x34][..], Extent::Cut { missing: 1 })),
            _ => Ok(captured(&[0x12, 0x34, 0x01][..], Extent::Whole)),
        };
        same_of(len, CapturedUdp::parse(&PADDED[..len]), want);
    }
    let short = [0xc0, 0, 0, 53, 0, 7, 0, 0, 0x12];
    same_of(7, CapturedUdp::parse(&short), Err(Refusal::Length(7)));
    let cut = captured(&[0x12][..], Extent::Cut { missing: 2 });
    prints(&cut, "UDP src=49152 dst=53 len=1 cut missing=2");
}
