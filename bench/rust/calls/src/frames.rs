//! What stands below a message: links, datagrams, UDP, the headers of IP, and checksums.

use crate::measure::{Case, measured, reads, writes};
use crate::messages::{ipv4_header, ipv6_header};
use crate::random::{Random, many};
use control_wire::frames::{Addresses, Datagram, Link, UdpPacket, UdpRepr};
use control_wire::{ChecksumCapabilities, IpProtocol, Ipv6Address, Ipv6Packet, Ipv6Repr, checksum};
use std::hint::black_box;

/// A datagram of UDP, and the addresses that its checksum counts.
struct Udp {
    addresses: Addresses,
    octets: Vec<u8>,
}

// A datagram of UDP with its checksum, of either family.
fn udp(random: &mut Random, place: usize) -> Udp {
    let addresses = if place % 2 == 0 {
        Addresses::V4(random.ipv4(), random.ipv4())
    } else {
        Addresses::V6(random.ipv6(), random.ipv6())
    };
    let mut octets = random.octets(8 + 8 * (place % 9));
    let len = octets.len() as u16;
    octets[2] |= 1;
    octets[4..6].copy_from_slice(&len.to_be_bytes());
    octets[6..8].fill(0);
    let before = addresses.sum_before(IpProtocol::Udp, len.into());
    checksum::fill(&mut octets, 6..8, before);
    Udp { addresses, octets }
}

// A datagram of IPv4 with no options, or with some.
fn datagram_v4(random: &mut Random, place: usize) -> Vec<u8> {
    let words = 5 + place % 3;
    let len = 4 * words + 16;
    let mut octets = random.octets(len);
    octets[0] = 0x40 + words as u8;
    octets[2..4].copy_from_slice(&(len as u16).to_be_bytes());
    octets[6] = 0x40;
    octets[7] = 0;
    octets[9] = [1, 2, 17, 6][place % 4];
    octets[10..12].fill(0);
    checksum::fill(&mut octets[..4 * words], 10..12, 0);
    octets
}

// A datagram of IPv6 with no header behind it, or with one of options, or two.
fn datagram_v6(random: &mut Random, place: usize) -> Vec<u8> {
    let extensions = place % 3;
    let len = 8 * extensions + 16;
    let mut octets = vec![0; 40];
    ipv6_header(random, len).emit_into(&mut octets);
    octets.extend_from_slice(&random.octets(len));
    octets[6] = if extensions == 0 { 58 } else { 0 };
    for extension in 0..extensions {
        let at = 40 + 8 * extension;
        octets[at] = if extension + 1 == extensions { 58 } else { 60 };
        octets[at + 1..at + 8].copy_from_slice(&[0, 1, 4, 0, 0, 0, 0]);
    }
    octets
}

// A frame of Ethernet, with tags or without.
fn frame(random: &mut Random, place: usize) -> Vec<u8> {
    let mut octets = random.octets(12);
    for _ in 0..place % 3 {
        octets.extend_from_slice(&[0x81, 0x00]);
        octets.extend_from_slice(&random.octets(2));
    }
    octets.extend_from_slice(if place % 2 == 0 {
        &[0x08, 0x00]
    } else {
        &[0x86, 0xdd]
    });
    octets.extend_from_slice(&random.octets(46));
    octets
}

/// The cases.
pub fn cases() {
    let frames = many(100, frame);
    reads("link_frame", &frames, |octets| Link::Ethernet.frame(octets));
    let v4 = many(101, datagram_v4);
    reads("datagram_parse_v4", &v4, |octets| {
        Datagram::parse_v4(octets).map(short)
    });
    let v6 = many(102, datagram_v6);
    reads("datagram_parse_v6", &v6, |octets| {
        Datagram::parse_v6(octets).map(short)
    });
    datagrams_of_udp();
    headers();
    checksums();
    #[cfg(feature = "later")]
    later(&frames, &v4, &v6);
}

// What the library of each commit has of a datagram.
fn short<'a>(datagram: Datagram<'a>) -> (Addresses, IpProtocol, u8, &'a [u8]) {
    (
        datagram.addresses,
        datagram.protocol,
        datagram.hop_limit,
        datagram.payload,
    )
}

fn datagrams_of_udp() {
    let caps = &ChecksumCapabilities::default();
    let datagrams = many(103, udp);
    reads("udp_parse", &datagrams, |udp| {
        UdpRepr::parse(&UdpPacket::new_checked(&udp.octets)?, &udp.addresses, caps)
    });
    reads("udp_verify_checksum", &datagrams, |udp| {
        UdpPacket::new_unchecked(&udp.octets).verify_checksum(&udp.addresses)
    });
    #[cfg(feature = "later")]
    {
        writes(
            "udp_emit",
            &datagrams,
            |udp| udp.octets.len(),
            |udp, out| {
                let (src_port, dst_port) = ports(&udp.octets);
                let ports = UdpRepr { src_port, dst_port };
                ports.emit_into(&udp.octets[8..], &udp.addresses, out, caps)
            },
        );
        reads("udp_parse_or_refusal", &datagrams, |udp| {
            let packet = UdpPacket::new_unchecked(&udp.octets);
            UdpRepr::parse_or_refusal(&packet, &udp.addresses, caps)
        });
        let damaged: Vec<Udp> = datagrams
            .iter()
            .zip(0..)
            .map(|(udp, place)| {
                let mut octets = udp.octets.clone();
                match place % 4 {
                    0 => octets[6] ^= 1,
                    1 => octets.truncate(place % 8),
                    2 => octets[2..4].fill(0),
                    _ => octets[4] ^= 0x10,
                }
                Udp { octets, ..*udp }
            })
            .collect();
        reads("udp_refusal", &damaged, |udp| {
            let packet = UdpPacket::new_unchecked(&udp.octets);
            UdpRepr::refusal(&packet, &udp.addresses, caps)
        });
    }
}

#[cfg(feature = "later")]
fn ports(octets: &[u8]) -> (u16, u16) {
    let packet = UdpPacket::new_unchecked(octets);
    (packet.src_port(), packet.dst_port())
}

fn headers() {
    let caps = &ChecksumCapabilities::default();
    let headers = many(104, |random, place| ipv4_header(random, place));
    writes(
        "ipv4_header_emit",
        &headers,
        |header| header.buffer_len(),
        |header, out| header.emit_into(out, caps),
    );
    let headers = many(105, |random, place| ipv6_header(random, place));
    writes(
        "ipv6_header_emit",
        &headers,
        Ipv6Repr::buffer_len,
        |header, out| header.emit_into(out),
    );
    let octets: Vec<Vec<u8>> = headers
        .iter()
        .map(|header| {
            let mut octets = vec![0; 40 + header.payload_len];
            header.emit_into(&mut octets);
            octets
        })
        .collect();
    reads("ipv6_header_parse", &octets, |octets| {
        Ipv6Repr::parse(&Ipv6Packet::new_checked(octets)?)
    });
}

fn checksums() {
    for (name, len) in [
        ("checksum_of_20", 20),
        ("checksum_of_64", 64),
        ("checksum_of_1500", 1_500),
    ] {
        let octets = many(106, |random, _| random.octets(len));
        reads(name, &octets, |octets| checksum::data(octets));
    }
    let pairs = many(107, |random, _| (random.ipv6(), random.ipv6()));
    reads(
        "checksum_pseudo_header_v6",
        &pairs,
        |(source, destination)| {
            checksum::pseudo_header_v6(source, destination, IpProtocol::Icmpv6, 64)
        },
    );
    let pairs = many(108, |random, _| (random.ipv4(), random.ipv4()));
    reads(
        "checksum_pseudo_header_v4",
        &pairs,
        |(source, destination)| {
            checksum::pseudo_header_v4(source, destination, IpProtocol::Udp, 64)
        },
    );
    let sums = many(109, |random, _| [random.u16(), random.u16(), random.u16()]);
    reads("checksum_combine", &sums, |sums| checksum::combine(sums));
    let mut case = Case::new("checksum_fill");
    for mut octets in many(110, |random, place| random.octets(8 + place)) {
        measured(
            |octets: &mut [u8]| checksum::fill(octets, 2..4, 7),
            black_box(&mut octets[..]),
        );
        case.add_octets(&octets);
    }
    case.end();
}

#[cfg(feature = "later")]
fn later(frames: &[Vec<u8>], v4: &[Vec<u8>], v6: &[Vec<u8>]) {
    use crate::measure::iterates;
    use control_wire::frames::{Captured, CapturedUdp};

    reads("link_frame_or_refusal", frames, |octets| {
        Link::Ethernet.frame_or_refusal(octets)
    });
    reads("link_refusal", frames, |octets| {
        Link::Ethernet.refusal(&octets[..octets.len() % 17])
    });
    let tagged: Vec<_> = frames
        .iter()
        .map(|octets| Link::Ethernet.frame(octets).unwrap())
        .collect();
    iterates("link_vlan_tags", &tagged, |frame| frame.vlan_tags());
    reads("captured_parse_v4", v4, |octets| {
        Captured::parse_v4(&octets[..octets.len() - octets.len() % 3])
    });
    reads("captured_parse_v6", v6, |octets| {
        Captured::parse_v6(&octets[..octets.len() - octets.len() % 3])
    });
    let datagrams = many(111, udp);
    reads("captured_udp_parse", &datagrams, |udp| {
        CapturedUdp::parse(&udp.octets[..udp.octets.len() - 3])
    });
    let headers: Vec<Vec<u8>> = many(112, |random, place| random.octets(place));
    reads("ipv6_header_refusal", &headers, |octets| {
        Ipv6Repr::refusal(&Ipv6Packet::new_unchecked(octets))
    });
    let addresses = Addresses::V6(Ipv6Address::UNSPECIFIED, Ipv6Address::UNSPECIFIED);
    reads("datagram_joined", v6, |octets| {
        Datagram::joined(addresses, IpProtocol::from(octets[6]), &octets[40..])
    });
    segments_of_tcp();
}

// A segment of TCP with some words of options, and two messages of DNS behind their lengths.
#[cfg(feature = "later")]
fn segment(random: &mut Random, place: usize) -> Vec<u8> {
    let header_len = 20 + 4 * (place % 5);
    let mut octets = random.octets(header_len);
    octets[12] = 4 * header_len as u8;
    for len in [12 + place % 20, 40] {
        octets.extend_from_slice(&(len as u16).to_be_bytes());
        octets.extend_from_slice(&random.octets(len));
    }
    octets
}

#[cfg(feature = "later")]
fn segments_of_tcp() {
    use crate::measure::iterates;
    use control_wire::frames::TcpSegment;
    use control_wire::frames::tcp::{self, Prefixed};

    let segments = many(113, segment);
    reads("tcp_parse", &segments, |octets| TcpSegment::parse(octets));
    let addresses = Addresses::V6(Ipv6Address::UNSPECIFIED, Ipv6Address::UNSPECIFIED);
    reads("tcp_verify_checksum", &segments, |octets| {
        tcp::verify_checksum(&addresses, octets)
    });
    let payloads: Vec<_> = segments
        .iter()
        .map(|octets| TcpSegment::parse(octets).unwrap().payload)
        .collect();
    reads("tcp_prefixed", &payloads, |octets| {
        Prefixed::new(octets, 12)
    });
    let messages: Vec<_> = payloads
        .iter()
        .map(|octets| Prefixed::new(octets, 12).unwrap())
        .collect();
    iterates("tcp_messages", &messages, |prefixed| prefixed.messages());
}
