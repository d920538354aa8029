// Made from crates/tests_above/src/quote/message.rt by rust/erase.
//! Messages of ICMP: echoes, errors whose quotes are cut, and messages of neighbor discovery.

use crate::testing::{prints, same, same_of};
use control_wire::icmpv4;
use control_wire::icmpv6;
use control_wire::quotes::message::{Icmpv4Message, Icmpv4Refusal, Icmpv6Message, Icmpv6Refusal};
use control_wire::quotes::{icmpv4_error, icmpv6_error, quote};
use control_wire::{ChecksumCapabilities, Error, Ipv6Address};

// An echo request.
const ECHO: &[u8] = &[0x08, 0, 0xf7, 0xfc, 0, 1, 0, 2];

// A time that was exceeded, with the header and the first eight bytes of a datagram of 60.
const TIME_EXCEEDED: &[u8] = &[
    0x0b, 0x00, 0x43, 0xd3, 0x00, 0x00, 0x00, 0x00, 0x45, 0x00, 0x00, 0x3c, 0x12, 0x34, 0x40, 0x00,
    0x01, 0x11, 0x7b, 0x46, 0xc0, 0x00, 0x02, 0x01, 0xc6, 0x33, 0x64, 0x02, 0x82, 0x9b, 0x82, 0x9b,
    0x00, 0x28, 0xab, 0xcd,
];

// That datagram, which had to be fragmented for a link of 1,400 bytes.
const FRAGMENTATION_REQUIRED: &[u8] = &[
    0x03, 0x04, 0x46, 0x57, 0x00, 0x00, 0x05, 0x78, 0x45, 0x00, 0x00, 0x3c, 0x12, 0x34, 0x40, 0x00,
    0x01, 0x11, 0x7b, 0x46, 0xc0, 0x00, 0x02, 0x01, 0xc6, 0x33, 0x64, 0x02, 0x82, 0x9b, 0x82, 0x9b,
    0x00, 0x28, 0xab, 0xcd,
];

// A packet that is too big for a link of 1,280 bytes, with the header and the first four bytes of one of 1,500.
const PACKET_TOO_BIG: &[u8] = &[
    0x02, 0x00, 0x8f, 0x1c, 0x00, 0x00, 0x05, 0x00, 0x6b, 0xb1, 0x23, 0x45, 0x05, 0xb4, 0x06, 0x3f,
    0xfe, 0x80, 0x00, 0x00, 0x00, 0x00, 0x00, 0x00, 0x00, 0x00, 0x00, 0x00, 0x00, 0x00, 0x00, 0x02,
    0xfe, 0x80, 0x00, 0x00, 0x00, 0x00, 0x00, 0x00, 0x00, 0x00, 0x00, 0x00, 0x00, 0x00, 0x00, 0x01,
    0xd4, 0x31, 0x00, 0x50,
];

// A router solicitation between the same two.
const ROUTER_SOLICIT: &[u8] = &[0x85, 0, 0x7d, 0xb8, 0, 0, 0, 0];

fn from() -> Ipv6Address {
    Ipv6Address::new(0xfe80, 0, 0, 0, 0, 0, 0, 1)
}

fn to() -> Ipv6Address {
    Ipv6Address::new(0xfe80, 0, 0, 0, 0, 0, 0, 2)
}

// Ends the test unless the octets are read and print this, or are refused for a reason that prints this.
fn tells4(octets: &[u8], wanted: Result<&str, &str>) {
    let caps = ChecksumCapabilities::default();
    let refusal = Icmpv4Message::refusal(octets, &caps);
    match (Icmpv4Message::parse_or_refusal(octets, &caps), wanted) {
        (Ok(message), Ok(text)) => {
            prints(&message, text);
            same(Icmpv4Message::parse(octets, &caps), Ok(message));
            same(refusal, None);
        }
        (Err(told), Err(text)) => {
            prints(&told, text);
            same(Icmpv4Message::parse(octets, &caps), Err(Error));
            same(refusal, Some(told));
        }
        (told, _) => same_of(octets, told.is_ok(), wanted.is_ok()),
    }
}

fn tells6(octets: &[u8], wanted: Result<&str, &str>) {
    let caps = ChecksumCapabilities::default();
    let refusal = Icmpv6Message::refusal(&from(), &to(), octets, &caps);
    let read = Icmpv6Message::parse(&from(), &to(), octets, &caps);
    same_of(octets, read.is_ok(), wanted.is_ok());
    same_of(octets, refusal.is_none(), wanted.is_ok());
    match (
        Icmpv6Message::parse_or_refusal(&from(), &to(), octets, &caps),
        wanted,
    ) {
        (Ok(message), Ok(text)) => prints(&message, text),
        (Err(told), Err(text)) => {
            prints(&told, text);
            same(refusal, Some(told));
        }
        (told, _) => same_of(octets, told.is_ok(), wanted.is_ok()),
    }
}

#[test]
fn messages_of_icmpv4_are_read_by_their_type() {
    let rows: &[(&[u8], Result<&str, &str>)] = &[
        (ECHO, Ok("ICMPv4 echo request id=1 seq=2 len=0")),
        (
            TIME_EXCEEDED,
            Ok("ICMPv4 time exceeded code=0 (time-to-live exceeded in transit) quoted=28"),
        ),
        (
            FRAGMENTATION_REQUIRED,
            Ok(
                "ICMPv4 destination unreachable code=4 (fragmentation required, and DF flag set) mtu=1400 quoted=28",
            ),
        ),
        (&[], Err("fewer than 8 bytes")),
        (&TIME_EXCEEDED[..7], Err("fewer than 8 bytes")),
        (&TIME_EXCEEDED[..35], Err("the checksum does not hold")),
        (
            &[0x0b, 0, 0xf4, 0xff, 0, 0, 0, 0],
            Err("the quoted header is cut"),
        ),
        (
            &[0x0d, 0, 0xf2, 0xff, 0, 0, 0, 0],
            Err("type 13 is not read"),
        ),
        (
            &[0x08, 1, 0xf7, 0xfe, 0, 0, 0, 0],
            Err("an echo of code 1 is not read"),
        ),
    ];
    for &(octets, wanted) in rows {
        tells4(octets, wanted);
    }
}

#[test]
fn messages_of_icmpv6_are_read_by_their_type() {
    let rows: &[(&[u8], Result<&str, &str>)] = &[
        (
            PACKET_TOO_BIG,
            Ok("ICMPv6 packet too big code=0 mtu=1280 quoted=44"),
        ),
        (ROUTER_SOLICIT, Ok("NDISC router solicitation")),
        (&[], Err("fewer than 8 bytes")),
        (&PACKET_TOO_BIG[..7], Err("fewer than 8 bytes")),
        (&PACKET_TOO_BIG[..51], Err("the checksum does not hold")),
        (&[0x9b, 0, 0, 0, 0, 0, 0, 0], Err("type 155 is not read")),
    ];
    for &(octets, wanted) in rows {
        tells6(octets, wanted);
    }
}

#[test]
fn errors_of_icmpv4_are_told_apart_by_their_type() {
    let caps = ChecksumCapabilities::ignored();
    let cut = icmpv4_error::Refusal::Quote(quote::Refusal::Short);
    for kind in 0..=255u8 {
        let octets = [kind, 1, 0, 0, 0, 0, 0, 0];
        let wanted = match kind {
            0 | 8 => Icmpv4Refusal::Message(icmpv4::Refusal::UnknownCode(1)),
            3 | 4 | 5 | 11 | 12 => Icmpv4Refusal::Error(cut),
            _ => Icmpv4Refusal::Message(icmpv4::Refusal::UnknownType(kind)),
        };
        let told = Icmpv4Message::refusal(&octets, &caps);
        same_of(kind, told, Some(wanted));
    }
}

#[test]
fn errors_of_icmpv6_are_told_apart_by_their_type() {
    let caps = ChecksumCapabilities::ignored();
    let cut = icmpv6_error::Refusal::Quote(quote::Refusal::Short);
    for kind in 0..=8u8 {
        let octets = [kind, 1, 0, 0, 0, 0, 0, 0];
        let wanted = match kind {
            1..=4 => Icmpv6Refusal::Error(cut),
            _ => Icmpv6Refusal::Message(icmpv6::Refusal::UnknownType(kind)),
        };
        let told = Icmpv6Message::refusal(&from(), &to(), &octets, &caps);
        same_of(kind, told, Some(wanted));
    }
}
