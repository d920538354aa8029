// Made from crates/tests_icmp/src/icmp4/icmpv4/refusing.rt by rust/erase.
//! Why octets are refused.

use super::{ALL, ECHO_REQUEST, PORT_UNREACHABLE};
use crate::testing::{prints, same, same_of, takes_writes};
use control_wire::ChecksumCapabilities;
use control_wire::icmpv4::{Packet, Refusal, Repr};

// Why the octets are refused, whatever their checksum.
fn why(octets: &[u8]) -> Option<Refusal> {
    Repr::refusal(
        &Packet::new_unchecked(octets),
        &ChecksumCapabilities::ignored(),
    )
}

#[test]
fn messages_that_are_refused() {
    const ROWS: &[(&[u8], Option<Refusal>)] = &[
        (&[], Some(Refusal::Short)),
        (&[0x08, 0, 0, 0, 0, 0, 0], Some(Refusal::Short)),
        (&[0x08, 0, 0, 0, 0, 0, 0, 0], None),
        (&[0x00, 0, 0, 0, 0, 0, 0, 0, 0], None),
        (&[0x08, 1, 0, 0, 0, 0, 0, 0], Some(Refusal::UnknownCode(1))),
        (
            &[0x00, 255, 0, 0, 0, 0, 0, 0],
            Some(Refusal::UnknownCode(255)),
        ),
        (&[0x05, 1, 0, 0, 0, 0, 0, 0], Some(Refusal::UnknownType(5))),
        (&[0x2a, 0, 0, 0, 0, 0, 0, 0], Some(Refusal::UnknownType(42))),
        (&[0x03, 3, 0, 0, 0, 0, 0, 0], Some(Refusal::QuotedHeader)),
        (&[0x0b, 0, 0, 0, 0, 0, 0, 0], Some(Refusal::QuotedHeader)),
        (&PORT_UNREACHABLE, None),
    ];
    for row in ROWS {
        same_of(row.0, why(row.0), row.1);
    }
}

#[test]
fn quotes_that_are_refused() {
    // How many bytes are quoted, the first of them and the total length that they tell.
    const ROWS: &[(usize, u8, u8, Option<Refusal>)] = &[
        (60, 0x45, 60, None),
        (28, 0x45, 20, None),
        (19, 0x45, 0, Some(Refusal::QuotedHeader)),
        (59, 0x4f, 0, Some(Refusal::QuotedHeader)),
        (20, 0x45, 19, Some(Refusal::QuotedLength)),
        (60, 0x4f, 59, Some(Refusal::QuotedLength)),
        (27, 0x45, 28, Some(Refusal::QuoteCut)),
        (60, 0x45, 61, Some(Refusal::QuoteCut)),
        (27, 0x45, 27, Some(Refusal::QuotedData)),
        (60, 0x4e, 60, Some(Refusal::QuotedData)),
    ];
    for row in ROWS {
        let mut octets = [0; 68];
        octets[0] = 3;
        octets[8] = row.1;
        octets[11] = row.2;
        let octets = octets.get(..row.0.saturating_add(8));
        same_of((row.0, row.1), octets.and_then(why), row.3);
    }
}

#[test]
fn messages_are_read_or_told_why_they_are_refused() {
    let message = Repr::EchoRequest {
        ident: 0x1234,
        seq_no: 0xabcd,
        data: &[0xaa, 0x00, 0x00, 0xff],
    };
    let whole = Packet::new_unchecked(&ECHO_REQUEST[..]);
    same(Repr::parse_or_refusal(&whole, &ALL), Ok(message));
    let cut = Packet::new_unchecked(&ECHO_REQUEST[..11]);
    let refusal = Refusal::Checksum;
    same(Repr::parse_or_refusal(&cut, &ALL), Err(refusal));
}

#[test]
fn a_wrong_checksum_is_told_before_the_type() {
    let mut octets = ECHO_REQUEST;
    octets[0] = 0x2a;
    let packet = Packet::new_unchecked(&octets[..]);
    same(Repr::refusal(&packet, &ALL), Some(Refusal::Checksum));
    same(why(&octets), Some(Refusal::UnknownType(42)));
}

#[test]
fn reasons_print_a_phrase() {
    const ROWS: &[(Refusal, &str)] = &[
        (Refusal::Short, "fewer than 8 bytes"),
        (Refusal::Checksum, "the checksum does not hold"),
        (Refusal::UnknownType(34), "type 34 is not read"),
        (Refusal::UnknownCode(1), "an echo of code 1 is not read"),
        (Refusal::QuotedHeader, "the quoted header is cut"),
        (
            Refusal::QuotedLength,
            "the quoted header is longer than its packet",
        ),
        (Refusal::QuoteCut, "the quoted packet is cut"),
        (
            Refusal::QuotedData,
            "fewer than 8 bytes stand behind the quoted header",
        ),
    ];
    for row in ROWS {
        prints(&row.0, row.1);
    }
    takes_writes(&Refusal::QuoteCut, 1);
    takes_writes(&Refusal::UnknownType(34), 3);
}
