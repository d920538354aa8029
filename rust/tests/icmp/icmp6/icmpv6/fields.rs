// Made from crates/tests_icmp/src/icmp6/icmpv6/fields.rt by rust/erase.

use super::{ECHO, destination, source};
use crate::testing::{holds_of, same, same_of};
use control_wire::icmpv6::{Message, Packet};

// Clears what is reserved in a message of which all but the type is 0xff, and checks that it is what is wanted.
fn check_cleared<const N: usize>(kind: u8, wanted: &[u8; N]) {
    let mut octets = [0xff; N];
    octets[0] = kind;
    Packet::new_unchecked(octets.as_mut_slice()).clear_reserved();
    same(&octets, wanted);
}

#[test]
fn what_solicitations_have_reserved_is_cleared() {
    check_cleared(0x85, &[0x85, 0xff, 0xff, 0xff, 0, 0, 0, 0]);
    check_cleared(0x87, &[0x87, 0xff, 0xff, 0xff, 0, 0, 0, 0, 0xff]);
}

#[test]
fn what_neighbor_advertisements_and_redirects_have_reserved_is_cleared() {
    check_cleared(0x88, &[0x88, 0xff, 0xff, 0xff, 0, 0, 0, 0, 0xff]);
    check_cleared(0x89, &[0x89, 0xff, 0xff, 0xff, 0, 0, 0, 0, 0xff]);
}

#[test]
fn what_a_report_has_reserved_is_cleared() {
    check_cleared(0x8f, &[0x8f, 0xff, 0xff, 0xff, 0, 0]);
}

#[test]
fn what_a_query_has_reserved_is_cleared() {
    for byte in 0..=255 {
        let mut octets = [0xff; 26];
        octets[0] = 0x82;
        octets[24] = byte;
        Packet::new_unchecked(octets.as_mut_slice()).clear_reserved();
        let mut wanted = [0xff; 26];
        wanted[0] = 0x82;
        wanted[6] = 0;
        wanted[7] = 0;
        wanted[24] = byte & 0x0f;
        same_of(byte, octets, wanted);
    }
}

// An echo reply with one octet behind its header.
const FIELDS: [u8; 9] = [0x81, 0x01, 0x12, 0x34, 0x56, 0x78, 0x9a, 0xbc, 0x2a];

#[test]
fn fields_are_set() {
    let mut octets = [0x2a; 9];
    let mut packet = Packet::new_unchecked(octets.as_mut_slice());
    packet.set_msg_type(Message::EchoReply);
    packet.set_msg_code(0x01);
    packet.set_checksum(0x1234);
    packet.set_echo_ident(0x5678);
    packet.set_echo_seq_no(0x9abc);
    same(packet.as_ref(), FIELDS.as_slice());
}

#[test]
fn fields_are_read() {
    let packet = Packet::new_unchecked(FIELDS.as_slice());
    same(packet.msg_type(), Message::EchoReply);
    same(packet.msg_code(), 0x01);
    same(
        [packet.checksum(), packet.echo_ident(), packet.echo_seq_no()],
        [0x1234, 0x5678, 0x9abc],
    );
}

#[test]
fn an_mtu_and_a_pointer_are_set_and_read() {
    let mut octets = FIELDS;
    let mut packet = Packet::new_unchecked(octets.as_mut_slice());
    packet.set_pkt_too_big_mtu(0x0102_0304);
    same(packet.pkt_too_big_mtu(), 0x0102_0304);
    packet.set_param_problem_ptr(0x0506_0708);
    same(packet.param_problem_ptr(), 0x0506_0708);
    same(
        octets,
        [0x81, 0x01, 0x12, 0x34, 0x05, 0x06, 0x07, 0x08, 0x2a],
    );
}

#[test]
fn checksums_and_what_stands_behind_the_header() {
    let mut octets = ECHO;
    let mut packet = Packet::new_unchecked(octets.as_mut_slice());
    packet.payload_mut().fill(0xff);
    let written = [
        0x80, 0x00, 0x19, 0xb3, 0x12, 0x34, 0xab, 0xcd, 0xff, 0xff, 0xff, 0xff,
    ];
    same(&*packet.into_inner(), written.as_slice());
}

#[test]
fn a_checksum_is_filled() {
    let mut octets = ECHO;
    octets[2] = 0;
    let mut packet = Packet::new_unchecked(octets.as_mut_slice());
    same(packet.verify_checksum(&source(), &destination()), false);
    packet.fill_checksum(&source(), &destination());
    same(packet.verify_checksum(&source(), &destination()), true);
    same(&*packet.into_inner(), ECHO.as_slice());
}

#[test]
fn packets_are_compared_with_what_stands_behind_their_header() {
    let packet = Packet::new_unchecked(ECHO.as_slice());
    let checked = Packet::new_checked(ECHO.as_slice());
    holds_of(12, checked == Ok(Packet::new_unchecked(ECHO.as_slice())));
    holds_of(11, packet != Packet::new_unchecked(&ECHO[..11]));
}
