// Made from crates/tests_icmp/src/icmp4/icmpv4/reading.rt by rust/erase.
//! What is read, and what is refused.

use super::{ALL, PORT_UNREACHABLE, QUOTED_DATA, all, quoted, read, write_unreachable};
#[allow(unused_imports)]
use crate::rattle_std::prelude::*;
use crate::testing::{same, same_of};
use control_wire::icmpv4::{
    DstUnreachable, Message, Packet, ParamProblem, Redirect, Repr, TimeExceeded,
};
use control_wire::{Checksum, ChecksumCapabilities, IpProtocol, Ipv4Address, Ipv4Repr};

// Whether a message is read from the octets.
fn is_read(octets: &[u8], capabilities: &ChecksumCapabilities) -> bool {
    read(octets, capabilities).is_ok()
}

// The octets of an error that quotes a header of this length of data.
fn unreachable(payload_len: usize) -> [u8; 36] {
    let mut octets = [0; 36];
    write_unreachable(&mut octets, payload_len, &ALL);
    octets
}

#[test]
fn a_quoted_length_is_read_as_that_of_the_data() {
    let message = Repr::DstUnreachable {
        reason: DstUnreachable::PortUnreachable,
        header: quoted(8),
        data: &QUOTED_DATA,
    };
    same(read(&unreachable(4), &ALL), Ok(message));
}

#[test]
fn a_quote_that_is_not_whole_is_refused() {
    same(is_read(&unreachable(16), &ALL), false);
}

// The packet of an error whose quote has this first byte and total length, and 40 bytes behind it.
fn quoting(first: u8, total_len: u16) -> [u8; 68] {
    let mut octets = [0; 68];
    octets[0] = 3;
    octets[8] = first;
    let [high, low] = total_len.to_be_bytes();
    octets[10] = high;
    octets[11] = low;
    octets
}

// How many bytes of data the error in the octets quotes.
fn quoted_len(octets: &[u8]) -> Option<usize> {
    match read(octets, &ChecksumCapabilities::ignored()) {
        Ok(Repr::DstUnreachable { header, data, .. }) => {
            same(header.payload_len, data.len());
            Some(data.len())
        }
        _ => None,
    }
}

#[test]
fn quotes_are_read_by_their_own_lengths() {
    // The first byte and the total length of a quote of 60 bytes, and the bytes of its data where it is read.
    const ROWS: &[(u8, u16, Option<usize>)] = &[
        (0x45, 60, Some(40)),
        (0x45, 28, Some(40)),
        (0x45, 20, Some(40)),
        (0x45, 19, None),
        (0x45, 61, None),
        (0x40, 0, Some(60)),
        (0x40, 60, Some(60)),
        (0x40, 61, None),
        (0x04, 16, Some(44)),
        (0x44, 15, None),
        (0x4d, 60, Some(8)),
        (0x4e, 60, None),
        (0x4f, 60, None),
    ];
    for &(first, total_len, data_len) in ROWS {
        let read_len = quoted_len(&quoting(first, total_len));
        same_of((first, total_len), read_len, data_len);
    }
}

#[test]
fn a_quote_of_a_header_of_no_bytes_has_all_of_it_as_data() {
    let mut octets = [0; 28];
    octets[0] = 3;
    octets[8] = 0x40;
    let ignored = ChecksumCapabilities::ignored();
    let unreachable = Repr::DstUnreachable {
        reason: DstUnreachable::NetUnreachable,
        header: Ipv4Repr {
            src_addr: Ipv4Address::UNSPECIFIED,
            dst_addr: Ipv4Address::UNSPECIFIED,
            next_header: IpProtocol::from(0),
            payload_len: 20,
            hop_limit: 0,
        },
        data: &octets[8..],
    };
    same(read(&octets, &ignored), Ok(unreachable));
}

// A packet that has this bit turned is refused where its checksum is looked at.
fn check_turned(turned: (usize, u32), octets: &[u8]) {
    let taken = [
        Packet::new_unchecked(octets).verify_checksum(),
        is_read(octets, &ALL),
        is_read(octets, &all(Checksum::Rx)),
    ];
    same_of(turned, taken, [false; 3]);
}

#[test]
fn a_checksum_that_is_wrong_by_a_bit_is_refused() {
    for place in 0..36usize {
        for bit in 0..8u32 {
            let mut octets = PORT_UNREACHABLE;
            octets[place] ^= 1 << bit;
            check_turned((place, bit), &octets);
        }
    }
}

#[test]
fn a_wrong_checksum_that_is_not_looked_at_is_taken() {
    let mut octets = PORT_UNREACHABLE;
    octets[3] ^= 1;
    let ignored = ChecksumCapabilities::ignored();
    same(is_read(&octets, &ignored), true);
    same(is_read(&octets, &all(Checksum::Tx)), true);
}

#[test]
fn other_messages_are_refused() {
    let ignored = ChecksumCapabilities::ignored();
    const ROWS: &[(u8, u8, bool)] = &[
        (8, 0, true),
        (8, 1, false),
        (0, 0, true),
        (0, 255, false),
        (3, 0, false),
        (5, 0, false),
        (9, 0, false),
        (13, 0, false),
        (255, 0, false),
    ];
    for &(kind, code, accepted) in ROWS {
        let octets = [kind, code, 0, 0, 0, 0, 0, 0];
        same_of((kind, code), is_read(&octets, &ignored), accepted);
    }
}

#[test]
fn a_packet_of_zeros_is_refused_where_its_checksum_is_looked_at() {
    same(is_read(&[0; 8], &ALL), false);
}

#[test]
fn packets_without_a_whole_header_are_refused() {
    let ignored = ChecksumCapabilities::ignored();
    let mut octets = [0u8; 8];
    for len in 0..8usize {
        same_of(len, Packet::new_checked(&octets[..len]).is_ok(), false);
        same_of(len, is_read(&octets[..len], &ignored), false);
    }
    same(Packet::new_checked(&mut octets[..]).is_ok(), true);
}

#[test]
fn packets_are_read_at_each_shorter_length() {
    let ignored = ChecksumCapabilities::ignored();
    for len in 0..36usize {
        same_of(len, is_read(&PORT_UNREACHABLE[..len], &ignored), false);
    }
}

const TIMESTAMP: [u8; 10] = [0x0d, 0x07, 0x12, 0x34, 0x56, 0x78, 0x9a, 0xbc, 0xff, 0xff];

#[test]
fn fields_that_are_written() {
    let mut octets = [0x2a; 10];
    let mut packet = Packet::new_unchecked(&mut octets[..]);
    packet.set_msg_type(Message::Timestamp);
    packet.set_msg_code(7);
    packet.set_checksum(0x1234);
    packet.set_echo_ident(0x5678);
    packet.set_echo_seq_no(0x9abc);
    packet.data_mut().fill(0xff);
    same(packet.as_ref(), TIMESTAMP.as_slice());
}

#[test]
fn a_checksum_that_is_filled_verifies() {
    let mut octets = TIMESTAMP;
    let mut packet = Packet::new_unchecked(&mut octets[..]);
    packet.fill_checksum();
    same(packet.verify_checksum(), true);
    let packet = Packet::new_unchecked(packet.into_inner());
    same(packet.verify_checksum(), true);
}

#[test]
fn fields_that_are_read() {
    let packet = Packet::new_unchecked(&TIMESTAMP[..]);
    same(packet.msg_type(), Message::Timestamp);
    same(packet.msg_code(), 7);
    same(packet.echo_ident(), 0x5678);
    same(packet.echo_seq_no(), 0x9abc);
}

#[test]
fn data_stand_behind_the_header() {
    let packet = Packet::new_unchecked(&TIMESTAMP[..]);
    same(packet.check_len(), Ok(()));
    same(packet.header_len(), 8);
    same(packet.data(), [0xff, 0xff].as_slice());
}

#[test]
fn a_copy_is_equal() {
    let packet = Packet::new_unchecked(&TIMESTAMP[..]);
    same(packet.try_clone().ok(), Some(packet));
}

#[test]
fn every_number_of_an_enum_comes_back() {
    for number in 0..=255u8 {
        same(u8::from(Message::from(number)), number);
        same(u8::from(DstUnreachable::from(number)), number);
        same(u8::from(Redirect::from(number)), number);
        same(u8::from(TimeExceeded::from(number)), number);
        same(u8::from(ParamProblem::from(number)), number);
    }
}

#[test]
fn numbers_of_the_enums() {
    same(Message::from(14), Message::TimestampReply);
    same(DstUnreachable::from(15), DstUnreachable::PrecedCutoff);
    same(Redirect::from(3), Redirect::HostToS);
    same(TimeExceeded::from(1), TimeExceeded::FragExpired);
    same(ParamProblem::from(2), ParamProblem::BadLength);
    same(ParamProblem::from(3), ParamProblem::Unknown(3));
}

#[test]
fn order_of_types() {
    same(Message::Redirect < Message::EchoRequest, true);
    same(Message::TimestampReply < Message::Unknown(0), true);
}

// Ends the test where the two differ or have other normal forms.
fn check_same_text(one: &[u8], other: &[u8]) {
    let one = read(one, &ALL);
    let other = read(other, &ALL);
    same(one, other);
    if let (Ok(one), Ok(other)) = (one, other) {}
}

#[test]
fn a_quoted_length_below_its_data_has_the_normal_form_of_the_whole() {
    let whole = unreachable(8);
    let part = unreachable(4);
    same(whole == part, false);
    check_same_text(&whole, &part);
}
