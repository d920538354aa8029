// Made from crates/tests_icmp/src/icmp4/icmpv4/writing.rt by rust/erase.
//! What writing leaves in a buffer.

use super::{ALL, ECHO_REQUEST, PORT_UNREACHABLE, QUOTED_DATA, all, quoted, write_unreachable};
use crate::testing::{same, same_of};
use control_wire::icmpv4::{Packet, Repr, TimeExceeded};
use control_wire::{Checksum, ChecksumCapabilities};

// The octets of a buffer before it is written into.
const FILLS: [u8; 4] = [0x00, 0xff, 0x2a, 0xa5];

// Writes an echo request over octets of this value, and compares them.
fn check_request<const N: usize>(fill: u8, ident: u16, seq_no: u16, data: &[u8], octets: &[u8; N]) {
    let mut written = [fill; N];
    let mut packet = Packet::new_unchecked(written.as_mut_slice());
    Repr::EchoRequest {
        ident,
        seq_no,
        data,
    }
    .emit(&mut packet, &ALL);
    same_of(fill, &written, octets);
}

#[test]
fn echo_requests_are_written() {
    const DATA: &[u8] = &[0xaa, 0x00, 0x00, 0xff];
    let short = [0x08, 0x00, 0x8f, 0xfd, 0x12, 0x34, 0xab, 0xcd, 0xaa, 0x00];
    let odd = [0x08, 0x00, 0xf8, 0xfe, 0x00, 0x00, 0x00, 0x00, 0xff];
    for fill in FILLS {
        check_request(fill, 0x1234, 0xabcd, DATA, &ECHO_REQUEST);
        check_request(fill, 0x1234, 0xabcd, DATA, &short);
        check_request(fill, 0, 0, &[0xff], &odd);
    }
    // The checksum is that of the whole buffer.
    let long = [
        0x08, 0x00, 0xe9, 0x58, 0x12, 0x34, 0xab, 0xcd, 0xaa, 0x00, 0x00, 0xff, 0xa5, 0xa5,
    ];
    check_request(0xa5, 0x1234, 0xabcd, DATA, &long);
}

const REPLY: Repr<'static> = Repr::EchoReply {
    ident: 0,
    seq_no: 0,
    data: &[],
};

// Writes the reply over octets of each value, and compares them.
fn check_reply(capabilities: &ChecksumCapabilities, octets: &[u8; 8]) {
    for fill in FILLS {
        let mut written = [fill; 8];
        let mut packet = Packet::new_unchecked(written.as_mut_slice());
        REPLY.emit(&mut packet, capabilities);
        same_of(fill, &written, octets);
    }
}

#[test]
fn echo_replies_are_written() {
    same(REPLY.buffer_len(), 8);
    let sealed = [0x00, 0x00, 0xff, 0xff, 0x00, 0x00, 0x00, 0x00];
    check_reply(&ALL, &sealed);
    check_reply(&all(Checksum::Rx), &[0; 8]);
}

// Writes the error over octets of each value, and compares them.
fn check_unreachable(capabilities: &ChecksumCapabilities, octets: &[u8; 36]) {
    for fill in FILLS {
        let mut written = [fill; 36];
        write_unreachable(&mut written, 8, capabilities);
        same_of(fill, &written, octets);
    }
}

#[test]
fn errors_are_written() {
    check_unreachable(&ALL, &PORT_UNREACHABLE);
}

#[test]
fn a_quote_is_written_without_its_checksum() {
    let capabilities = ChecksumCapabilities {
        ipv4: Checksum::None,
        ..ALL
    };
    let mut octets = PORT_UNREACHABLE;
    octets[2..4].copy_from_slice(&[0x23, 0x5a]);
    octets[18..20].copy_from_slice(&[0, 0]);
    check_unreachable(&capabilities, &octets);
}

fn write_time_exceeded(octets: &mut [u8], reason: TimeExceeded) {
    let mut packet = Packet::new_unchecked(octets);
    Repr::TimeExceeded {
        reason,
        header: quoted(8),
        data: &QUOTED_DATA,
    }
    .emit(&mut packet, &ALL);
}

// Writes an exceeded time over octets of each value, and compares them.
fn check_time_exceeded(reason: TimeExceeded, front: [u8; 4]) {
    let mut octets = PORT_UNREACHABLE;
    octets[..4].copy_from_slice(&front);
    for fill in FILLS {
        let mut written = [fill; 36];
        write_time_exceeded(&mut written, reason);
        same_of(fill, written, octets);
    }
}

#[test]
fn exceeded_times_are_written() {
    check_time_exceeded(TimeExceeded::TtlExpired, [0x0b, 0x00, 0xf4, 0x8d]);
    check_time_exceeded(TimeExceeded::FragExpired, [0x0b, 0x01, 0xf4, 0x8c]);
}
