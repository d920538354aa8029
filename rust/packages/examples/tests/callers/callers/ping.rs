// Made from crates/tests_examples/src/callers/ping.rt by rust/erase.
use crate::testing::same;
use control_wire::{Ipv6Address, icmp, icmpv4, icmpv6};
use examples::ping::{answer, answer_v6};

// An echo request with identifier 0x1234, sequence number 0xabcd and four bytes, and its reply.
const REQUEST: [u8; 12] = [
    0x08, 0x00, 0x8e, 0xfe, 0x12, 0x34, 0xab, 0xcd, 0xaa, 0x00, 0x00, 0xff,
];

const REPLY: [u8; 12] = [
    0x00, 0x00, 0x96, 0xfe, 0x12, 0x34, 0xab, 0xcd, 0xaa, 0x00, 0x00, 0xff,
];

#[test]
fn echo_request_is_answered_at_the_front() {
    for fill in [0x00, 0xff, 0x2a] {
        let mut reply = [fill; 14];
        same(answer(&REQUEST, &mut reply), Some(12));
        same(&reply[..12], REPLY.as_slice());
        same(&reply[12..], [fill; 2].as_slice());
    }
}

#[test]
fn what_is_no_good_request_or_has_no_room_is_not_answered() {
    let mut reply = [0x2a; 12];
    same(answer(&REPLY, &mut reply), None);
    same(answer(&REQUEST[..11], &mut reply), None);
    same(answer(&[], &mut reply), None);
    same(reply.as_slice(), [0x2a; 12].as_slice());
    let mut short = [0x2a; 11];
    same(answer(&REQUEST, &mut short), None);
    same(short.as_slice(), [0x2a; 11].as_slice());
}

#[test]
fn echo_request_over_ipv6_is_answered_from_the_own_address() {
    let peer = Ipv6Address::new(0xfe80, 0, 0, 0, 0, 0, 0, 1);
    let own = Ipv6Address::new(0xfe80, 0, 0, 0, 0, 0, 0, 2);
    let request = [
        0x80, 0x00, 0x19, 0xb3, 0x12, 0x34, 0xab, 0xcd, 0xaa, 0x00, 0x00, 0xff,
    ];
    let mut reply = [0x2a; 14];
    same(answer_v6(&peer, &own, &own, &request, &mut reply), Some(12));
    let written = [
        0x81, 0x00, 0x18, 0xb3, 0x12, 0x34, 0xab, 0xcd, 0xaa, 0x00, 0x00, 0xff, 0x2a, 0x2a,
    ];
    same(reply, written);
    let mut short = [0x2a; 11];
    same(answer_v6(&peer, &own, &own, &request, &mut short), None);
    same(short, [0x2a; 11]);
    same(answer_v6(&own, &own, &own, &request, &mut reply), None);
}

#[test]
fn a_message_of_icmpv4_is_one_of_either_icmp() {
    let message = icmpv4::Repr::EchoRequest {
        ident: 0x1234,
        seq_no: 0xabcd,
        data: &REQUEST[8..],
    };
    let is_kept = match icmp::Repr::from(message) {
        icmp::Repr::Ipv4(kept) => kept == message,
        icmp::Repr::Ipv6(_) => false,
    };
    same(is_kept, true);
}

#[test]
fn a_message_of_icmpv6_is_one_of_either_icmp() {
    let message = icmpv6::Repr::EchoReply {
        ident: 0x1234,
        seq_no: 0xabcd,
        data: &REQUEST[8..],
    };
    let is_kept = match icmp::Repr::from(message) {
        icmp::Repr::Ipv6(kept) => kept == message,
        icmp::Repr::Ipv4(_) => false,
    };
    same(is_kept, true);
}
