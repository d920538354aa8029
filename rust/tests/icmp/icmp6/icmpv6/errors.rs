// Made from crates/tests_icmp/src/icmp6/icmpv6/errors.rt by rust/erase.

use super::{
    FILLS, TOO_BIG, all, behind, check_found, check_written, destination, is_read, read, source,
};
use crate::testing::{differ, holds_of, same, same_of};
use control_wire::icmpv6::{DstUnreachable, Packet, ParamProblem, Repr, TimeExceeded};
use control_wire::{Checksum, IpProtocol, Ipv6Repr};

// The header from fe80::1 to fe80::2 that the errors quote.
fn quoted() -> Ipv6Repr {
    Ipv6Repr {
        src_addr: source(),
        dst_addr: destination(),
        next_header: IpProtocol::Udp,
        payload_len: 12,
        hop_limit: 64,
    }
}

const QUOTED_DATA: [u8; 12] = [
    0xbf, 0x00, 0x00, 0x35, 0x00, 0x0c, 0x12, 0x4d, 0xaa, 0x00, 0x00, 0xff,
];

#[test]
fn errors_are_written_and_read() {
    let error = Repr::PktTooBig {
        mtu: 1500,
        header: quoted(),
        data: &QUOTED_DATA,
    };
    check_written(&error, &TOO_BIG);
    check_found(&read(&TOO_BIG, Checksum::Both), &error);
}

#[test]
fn unreachable_destinations_are_written_and_read() {
    let wanted = behind(&[0x01, 0x00, 0x16, 0xa5, 0x00, 0x00, 0x00, 0x00]);
    let error = Repr::DstUnreachable {
        reason: DstUnreachable::NoRoute,
        header: quoted(),
        data: &QUOTED_DATA,
    };
    check_written(&error, &wanted);
    check_found(&read(&wanted, Checksum::Both), &error);
}

#[test]
fn errors_quote_a_whole_header() {
    holds_of(47, !is_read(&TOO_BIG[..47], Checksum::None));
    holds_of(48, is_read(&TOO_BIG[..48], Checksum::None));
}

#[test]
fn times_exceeded_are_written_and_read() {
    let wanted = behind(&[0x03, 0x01, 0x14, 0xa4, 0x00, 0x00, 0x00, 0x00]);
    let error = Repr::TimeExceeded {
        reason: TimeExceeded::FragReassemExceeded,
        header: quoted(),
        data: &QUOTED_DATA,
    };
    check_written(&error, &wanted);
    check_found(&read(&wanted, Checksum::Both), &error);
}

#[test]
fn parameter_problems_are_written_and_read() {
    let wanted = behind(&[0x04, 0x01, 0x0f, 0x9c, 0x01, 0x02, 0x03, 0x06]);
    let error = Repr::ParamProblem {
        reason: ParamProblem::UnrecognizedNxtHdr,
        pointer: 0x0102_0306,
        header: quoted(),
        data: &QUOTED_DATA,
    };
    check_written(&error, &wanted);
    check_found(&read(&wanted, Checksum::Both), &error);
}

// An error of a port, which quotes these data.
fn port_unreachable(data: &[u8]) -> Repr<'_> {
    Repr::DstUnreachable {
        reason: DstUnreachable::PortUnreachable,
        header: quoted(),
        data,
    }
}

// Writes an error with this data over octets that are all this one, and checks that it is read with what it quotes.
fn check_quoted(data: &[u8], cut: &[u8], fill: u8) -> [u8; 1240] {
    let mut octets = [fill; 1240];
    let caps = all(Checksum::Both);
    port_unreachable(data).emit_into(&source(), &destination(), &mut octets, &caps);
    check_found(&read(&octets, Checksum::Both), &port_unreachable(cut));
    octets
}

// Checks that these errors differ, and asks `same_text` about both.
fn check_same_text(one: &Repr<'_>, other: &Repr<'_>) {
    differ("errors with other data", one, other);
    let caps = all(Checksum::Both);
}

#[test]
fn errors_that_differ_past_what_they_quote_have_the_same_text() {
    let mut data = [0x11; 1194];
    data[1192] = 0x12;
    data[1193] = 0x13;
    let cut = &data[..1192];
    let written = check_quoted(cut, cut, 0);
    let over = check_quoted(&data, cut, 0xff);
    same(written.as_slice(), over.as_slice());
    check_same_text(&port_unreachable(cut), &port_unreachable(&data));
    check_found(&read(&written, Checksum::Both), &port_unreachable(cut));
}

// A packet that is too big, of which these data are quoted.
fn too_big(data: &[u8]) -> Repr<'_> {
    Repr::PktTooBig {
        mtu: 1280,
        header: quoted(),
        data,
    }
}

// Checks that an error with this data has so many bytes.
fn check_len(data: &[u8], len: usize) {
    let error = too_big(data);
    same_of(data, [error.buffer_len(), error.packet_len()], [len, len]);
}

#[test]
fn errors_quote_1192_bytes_at_the_most() {
    let data = [0x11; 9999];
    check_len(&[], 48);
    check_len(&data[..1], 49);
    check_len(&data[..1192], 1240);
    check_len(&data[..1193], 1240);
    check_len(&data, 1240);
}

// Writes an error of these data, more than it quotes, over octets that are all this one, and checks its checksum and
// that it is read with what it quotes of them.
fn check_read_over(data: &[u8], fill: u8) {
    let mut octets = [fill; 1240];
    let mut packet = Packet::new_unchecked(octets.as_mut_slice());
    too_big(data).emit(&source(), &destination(), &mut packet, &all(Checksum::Both));
    same_of(fill, &octets[2..4], [0xcc, 0xdb].as_slice());
    check_found(&read(&octets, Checksum::Both), &too_big(&data[..1192]));
}

#[test]
fn what_an_error_quotes_is_read() {
    let data = [0x11; 9999];
    for &fill in FILLS {
        check_read_over(&data, fill);
    }
}

// The bytes of the data that a packet that is too big quotes; nothing where the octets are another message.
fn quoted_len(octets: &[u8]) -> Option<usize> {
    match &read(octets, Checksum::Both) {
        Ok(Repr::PktTooBig { data, .. }) => Some(data.len()),
        _ => None,
    }
}

// Checks an error of these data, more than it quotes, that is written into a longer buffer, whose octets are all this
// one.
fn check_in_longer_buffer(data: &[u8], fill: u8, checksum: &[u8; 2]) {
    let mut octets = [fill; 1300];
    let caps = all(Checksum::Both);
    too_big(data).emit_into(&source(), &destination(), &mut octets, &caps);
    // The checksum is of all 1,300 octets, of which the last 60 stay as they were.
    same_of(fill, &octets[2..4], checksum.as_slice());
    same_of(fill, &octets[1240..], [fill; 60].as_slice());
    // All behind the quoted header is read as its data.
    same_of(fill, quoted_len(&octets), Some(1252));
}

#[test]
fn an_error_in_a_longer_buffer_has_the_checksum_of_the_whole() {
    let data = [0x11; 9999];
    check_in_longer_buffer(&data[..1193], 0xff, &[0xcc, 0x9f]);
    check_in_longer_buffer(&data, 0xff, &[0xcc, 0x9f]);
    check_in_longer_buffer(&data, 0x00, &[0xcc, 0x9f]);
    check_in_longer_buffer(&data, 0x2a, &[0xdb, 0xae]);
}

#[test]
fn a_quote_is_not_looked_into() {
    let mut octets = TOO_BIG;
    // Version 4, and a payload that is longer than what is there.
    octets[8] = 0x45;
    octets[12] = 0xff;
    holds_of("version 4", is_read(&octets, Checksum::None));
}
