// Made from crates/tests_icmp/src/icmp4/icmpv4/damaged.rt by rust/erase.
//! Damaged and cut messages, against a second reader by RFC 792 and RFC 791 section 3.1 alone.

use super::{ALL, ECHO_REQUEST, PORT_UNREACHABLE};
use crate::testing::{agree, holds_of, same_of};
use control_wire::icmpv4::{DstUnreachable, Packet, Repr, TimeExceeded};
use control_wire::{ChecksumCapabilities, IpProtocol, Ipv4Address, Ipv4Repr};

// Whether the words of the octets sum to all ones, each carry added as it comes (RFC 1071).
fn is_good(octets: &[u8]) -> bool {
    let mut sum: u32 = 0;
    for (i, octet) in octets.iter().enumerate() {
        let worth = if i % 2 == 0 {
            *octet as u32 * 256
        } else {
            *octet as u32
        };
        sum = sum.wrapping_add(worth);
        if sum > 0xffff {
            sum = sum.wrapping_sub(0xffff);
        }
    }
    sum == 0xffff
}

// The addresses of a header, from the one and to the other.
fn read_addresses(header: &[u8]) -> Option<(Ipv4Address, Ipv4Address)> {
    let [s0, s1, s2, s3, d0, d1, d2, d3, ..] = header.get(12..)? else {
        return None;
    };
    let from = Ipv4Address::new(*s0, *s1, *s2, *s3);
    Some((from, Ipv4Address::new(*d0, *d1, *d2, *d3)))
}

// The header that an error quotes, and what follows it. The version is not looked at, and the header's length
// may be too short for a header.
fn read_quote(quote: &[u8]) -> Option<(Ipv4Repr, &[u8])> {
    let [first, _, high, low, _, _, _, _, hop_limit, protocol, ..] = quote else {
        return None;
    };
    let header_len = 4 * (*first % 16) as usize;
    let total_len = u16::from_be_bytes([*high, *low]) as usize;
    if total_len < header_len || quote.len() < total_len || quote.len() < header_len + 8 {
        return None;
    }
    let (src_addr, dst_addr) = read_addresses(quote)?;
    let data = quote.get(header_len..)?;
    let header = Ipv4Repr {
        src_addr,
        dst_addr,
        next_header: IpProtocol::from(*protocol),
        payload_len: data.len(),
        hop_limit: *hop_limit,
    };
    Some((header, data))
}

// The error of this type and code with this behind its header.
fn read_error(kind: u8, code: u8, quote: &[u8]) -> Option<Repr<'_>> {
    let (header, data) = read_quote(quote)?;
    match kind {
        3 => Some(Repr::DstUnreachable {
            reason: DstUnreachable::from(code),
            header,
            data,
        }),
        11 => Some(Repr::TimeExceeded {
            reason: TimeExceeded::from(code),
            header,
            data,
        }),
        _ => None,
    }
}

// The message in the octets, whatever their checksum.
fn read(octets: &[u8]) -> Option<Repr<'_>> {
    let [kind, code, _, _, i0, i1, n0, n1, data @ ..] = octets else {
        return None;
    };
    let ident = u16::from_be_bytes([*i0, *i1]);
    let seq_no = u16::from_be_bytes([*n0, *n1]);
    match (*kind, *code) {
        (8, 0) => Some(Repr::EchoRequest {
            ident,
            seq_no,
            data,
        }),
        (0, 0) => Some(Repr::EchoReply {
            ident,
            seq_no,
            data,
        }),
        (kind, code) => read_error(kind, code, data),
    }
}

// Compares what is accepted with the plain reader's answers over these octets.
fn compare_checks(octets: &[u8]) {
    let packet = Packet::new_unchecked(octets);
    let is_long = octets.len() >= 8;
    same_of(octets, packet.verify_checksum(), is_good(octets));
    same_of(octets, packet.check_len().is_ok(), is_long);
    same_of(octets, Packet::new_checked(octets).is_ok(), is_long);
}

// Compares the message that is read with the plain reader's over these octets.
fn compare(octets: &[u8]) {
    let plain = read(octets);
    let packet = Packet::new_unchecked(octets);
    let ignored = ChecksumCapabilities::ignored();
    agree(octets, &Repr::parse(&packet, &ignored), &plain);
    let verified = if is_good(octets) { plain } else { None };
    agree(octets, &Repr::parse(&packet, &ALL), &verified);
    same_of(
        octets,
        Repr::refusal(&packet, &ALL).is_none(),
        verified.is_some(),
    );
}

// Compares the fields of the view with the octets at their places.
fn compare_fields(octets: &[u8]) {
    let [kind, code, _, _, i0, i1, n0, n1, data @ ..] = octets else {
        return;
    };
    let packet = Packet::new_unchecked(octets);
    same_of(octets, u8::from(packet.msg_type()), *kind);
    same_of(octets, packet.msg_code(), *code);
    same_of(octets, packet.echo_ident().to_be_bytes(), [*i0, *i1]);
    same_of(octets, packet.echo_seq_no().to_be_bytes(), [*n0, *n1]);
    same_of(octets, packet.data(), data);
}

// Compares all of it over these octets.
fn compare_all(octets: &[u8]) {
    compare_checks(octets);
    compare(octets);
    compare_fields(octets);
}

// Compares them over a packet that is read, each shorter part of it, and each copy of it in which one byte is another.
fn check_damaged<const N: usize>(packet: &[u8; N]) {
    let read = Repr::parse(&Packet::new_unchecked(packet.as_slice()), &ALL);
    holds_of(packet, read.is_ok());
    for len in 0..=N {
        compare_all(&packet[..len]);
    }
    for at in 0..N {
        for value in 0..=255u8 {
            let mut octets = *packet;
            octets[at] = value;
            compare_all(octets.as_slice());
        }
    }
}

#[test]
fn damaged_echoes_are_read_as_by_a_plain_reader() {
    check_damaged(&ECHO_REQUEST);
    let odd_request = [0x08, 0x00, 0xf8, 0xfe, 0x00, 0x00, 0x00, 0x00, 0xff];
    check_damaged(&odd_request);
    let reply = [
        0x00, 0x00, 0x96, 0xfe, 0x12, 0x34, 0xab, 0xcd, 0xaa, 0x00, 0x00, 0xff,
    ];
    check_damaged(&reply);
    check_damaged(&[0x00, 0x00, 0xff, 0xff, 0x00, 0x00, 0x00, 0x00]);
}

#[test]
fn damaged_errors_are_read_as_by_a_plain_reader() {
    // The type, the code and the checksum of each.
    const FRONTS: [[u8; 4]; 3] = [
        [0x03, 0x03, 0xfc, 0x8a],
        [0x0b, 0x00, 0xf4, 0x8d],
        [0x0b, 0x01, 0xf4, 0x8c],
    ];
    for front in FRONTS {
        let mut octets = PORT_UNREACHABLE;
        octets[..4].copy_from_slice(&front);
        check_damaged(&octets);
    }
    // A quote of a header alone by its total length, and 16 bytes behind it.
    let mut octets = [0; 44];
    octets[..36].copy_from_slice(&PORT_UNREACHABLE);
    octets[3] = 0x92;
    octets[11] = 0x14;
    check_damaged(&octets);
}
