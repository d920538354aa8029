// Made from crates/tests_icmp/src/icmp6/icmpv6.rt by rust/erase.

use crate::icmp6::plain_reader::compare_damaged;
use crate::testing::{holds_of, reads, same_of};
use control_wire::icmpv6::{Packet, Repr};
use control_wire::{Checksum, ChecksumCapabilities, Ipv6Address};

mod errors;
mod fields;
mod refusals;
mod texts;
mod types;

// The octets of a buffer before it is written into.
const FILLS: &[u8] = &[0x00, 0xff, 0x2a, 0xa5];

// The capabilities for every protocol.
const fn all(checksum: Checksum) -> ChecksumCapabilities {
    ChecksumCapabilities {
        ipv4: checksum,
        udp: checksum,
        tcp: checksum,
        icmpv4: checksum,
        icmpv6: checksum,
    }
}

fn source() -> Ipv6Address {
    Ipv6Address::new(0xfe80, 0, 0, 0, 0, 0, 0, 1)
}

fn destination() -> Ipv6Address {
    Ipv6Address::new(0xfe80, 0, 0, 0, 0, 0, 0, 2)
}

const ECHO: [u8; 12] = [
    0x80, 0x00, 0x19, 0xb3, 0x12, 0x34, 0xab, 0xcd, 0xaa, 0x00, 0x00, 0xff,
];

// A packet that is too big: its header, the quoted header and what follows it.
const TOO_BIG: [u8; 60] = [
    0x02, 0x00, 0x0f, 0xc9, 0x00, 0x00, 0x05, 0xdc, 0x60, 0x00, 0x00, 0x00, 0x00, 0x0c, 0x11, 0x40,
    0xfe, 0x80, 0x00, 0x00, 0x00, 0x00, 0x00, 0x00, 0x00, 0x00, 0x00, 0x00, 0x00, 0x00, 0x00, 0x01,
    0xfe, 0x80, 0x00, 0x00, 0x00, 0x00, 0x00, 0x00, 0x00, 0x00, 0x00, 0x00, 0x00, 0x00, 0x00, 0x02,
    0xbf, 0x00, 0x00, 0x35, 0x00, 0x0c, 0x12, 0x4d, 0xaa, 0x00, 0x00, 0xff,
];

// An error that quotes the same packet behind its type, code, checksum and the word behind them.
fn behind(front: &[u8; 8]) -> [u8; 60] {
    let mut octets = TOO_BIG;
    octets[..8].copy_from_slice(front);
    octets
}

// The message in the octets, whose checksum is verified or not.
fn read(octets: &[u8], checksum: Checksum) -> control_wire::Result<Repr<'_>> {
    let packet = Packet::new_unchecked(octets);
    Repr::parse(&source(), &destination(), &packet, &all(checksum))
}

// Whether the octets are read as a message.
fn is_read(octets: &[u8], checksum: Checksum) -> bool {
    read(octets, checksum).is_ok()
}

// Whether the octets have the checksum of their addresses.
fn verifies(octets: &[u8]) -> bool {
    Packet::new_unchecked(octets).verify_checksum(&source(), &destination())
}

// What a message makes of octets that are all this one.
fn written_over<const N: usize>(message: &Repr<'_>, fill: u8) -> [u8; N] {
    let mut octets = [fill; N];
    let mut packet = Packet::new_unchecked(octets.as_mut_slice());
    message.emit(&source(), &destination(), &mut packet, &all(Checksum::Both));
    octets
}

// Writes a message over octets that are all the same, and checks that it is those which are wanted.
fn check_written<const N: usize>(message: &Repr<'_>, wanted: &[u8; N]) {
    for &fill in FILLS {
        same_of(fill, written_over(message, fill), *wanted);
    }
}

// Checks that what was read is this message.
fn check_found(found: &control_wire::Result<Repr<'_>>, wanted: &Repr<'_>) {
    reads(found, wanted);
}

#[test]
fn echo_requests_are_written_and_read() {
    let request = Repr::EchoRequest {
        ident: 0x1234,
        seq_no: 0xabcd,
        data: &[0xaa, 0x00, 0x00, 0xff],
    };
    check_written(&request, &ECHO);
    check_found(&read(&ECHO, Checksum::Both), &request);
}

#[test]
fn the_checksum_of_an_echo_is_of_its_addresses() {
    holds_of("to its address", verifies(&ECHO));
    let packet = Packet::new_unchecked(ECHO.as_slice());
    let caps = all(Checksum::Both);
    holds_of(
        "to another address",
        Repr::parse(&source(), &Ipv6Address::UNSPECIFIED, &packet, &caps).is_err(),
    );
}

#[test]
fn echo_replies_are_written_and_read() {
    let wanted = [
        0x81, 0x00, 0x18, 0xb3, 0x12, 0x34, 0xab, 0xcd, 0xaa, 0x00, 0x00, 0xff,
    ];
    let reply = Repr::EchoReply {
        ident: 0x1234,
        seq_no: 0xabcd,
        data: &[0xaa, 0x00, 0x00, 0xff],
    };
    check_written(&reply, &wanted);
    check_found(&read(&wanted, Checksum::Both), &reply);
}

// Checks whether a message of this type and this code, which has so many octets, is read.
fn check_code(kind: u8, code: u8, len: usize, wanted: bool) {
    let mut octets = TOO_BIG;
    octets[0] = kind;
    octets[1] = code;
    let message = octets.get(..len).expect("60 octets are enough");
    same_of((kind, code), is_read(message, Checksum::None), wanted);
}

#[test]
fn three_errors_have_any_code_and_the_others_code_0() {
    const ROWS: &[(u8, bool)] = &[
        (1u8, true),
        (2, false),
        (3, true),
        (4, true),
        (0x80, false),
        (0x81, false),
        (0x82, false),
        (0x8f, false),
    ];
    for code in 0..=255 {
        for &(kind, any) in ROWS {
            check_code(kind, code, 60, any || code == 0);
        }
    }
}

#[test]
fn messages_of_neighbor_discovery_have_code_0() {
    // A type, and the octets of its messages without options.
    const ROWS: &[(u8, usize)] = &[
        (0x85u8, 8usize),
        (0x86, 16),
        (0x87, 24),
        (0x88, 24),
        (0x89, 40),
    ];
    for code in 0..=255 {
        for &(kind, len) in ROWS {
            check_code(kind, code, len, code == 0);
        }
    }
}

// Turns this bit of a packet that is too big, and checks that it is read only where no checksum is verified.
fn check_turned(at: usize, mask: u8) {
    let mut octets = TOO_BIG;
    octets[at] ^= mask;
    let found = [
        verifies(&octets),
        is_read(&octets, Checksum::Rx),
        is_read(&octets, Checksum::Tx),
    ];
    same_of((mask, at), found, [false, false, true]);
}

#[test]
fn a_turned_bit_of_the_checksum_is_refused() {
    const MASKS: &[u8] = &[0x01, 0x02, 0x04, 0x08, 0x10, 0x20, 0x40, 0x80];
    for &mask in MASKS {
        check_turned(2, mask);
        check_turned(3, mask);
    }
}

#[test]
fn damaged_echoes_and_errors() {
    const FRONTS: &[[u8; 8]] = &[
        [0x01, 0x00, 0x16, 0xa5, 0x00, 0x00, 0x00, 0x00],
        [0x02, 0x00, 0x0f, 0xc9, 0x00, 0x00, 0x05, 0xdc],
        [0x03, 0x01, 0x14, 0xa4, 0x00, 0x00, 0x00, 0x00],
        [0x04, 0x01, 0x0f, 0x9c, 0x01, 0x02, 0x03, 0x06],
    ];
    for front in FRONTS {
        compare_damaged(&behind(front));
    }
    compare_damaged(&ECHO);
    let mut reply = ECHO;
    reply[0] = 0x81;
    compare_damaged(&reply);
}
