// Made from crates/tests_icmp/src/icmp6/icmpv6/types.rt by rust/erase.
use crate::testing::{prints, same_of, takes_writes};
use control_wire::icmpv6::{DstUnreachable, Message, Packet, ParamProblem, TimeExceeded};

// Checks the bytes of the header of a type.
fn check_header_len(kind: u8, len: usize) {
    let mut octets = [0; 41];
    octets[0] = kind;
    let packet = Packet::new_unchecked(octets.as_slice());
    same_of(kind, packet.header_len(), len);
}

// Checks that so many octets of a type begin with its header or not.
fn check_front(kind: u8, len: usize, wanted: bool) {
    let mut octets = [0; 41];
    octets[0] = kind;
    let front = octets.get(..len).expect("41 octets are enough");
    let is_whole = Packet::new_checked(front).is_ok();
    same_of((kind, len), is_whole, wanted);
}

#[test]
fn each_type_asks_its_header() {
    const ROWS: &[(u8, usize)] = &[
        (1u8, 8usize),
        (2, 8),
        (3, 8),
        (4, 8),
        (0x80, 8),
        (0x81, 8),
        (0x82, 28),
        (0x85, 8),
        (0x86, 16),
        (0x87, 24),
        (0x88, 24),
        (0x89, 40),
        (0x8f, 8),
    ];
    for &(kind, least) in ROWS {
        check_header_len(kind, least);
        for len in 0..=41 {
            check_front(kind, len, least <= len);
        }
    }
}

#[test]
fn other_types_are_not_read() {
    const OTHERS: &[u8] = &[0, 5, 127, 0x83, 0x84, 0x9b, 0xff];
    for &kind in OTHERS {
        check_header_len(kind, 4);
        check_front(kind, 41, false);
    }
}

// Checks whether a type is that of an error, of neighbor discovery or of listener discovery, and how it is printed.
fn check_type(message: Message, classes: [bool; 3], text: &str) {
    same_of(
        message,
        [message.is_error(), message.is_ndisc(), message.is_mld()],
        classes,
    );
    prints(&message, text);
}

const ERROR: [bool; 3] = [true, false, false];

const NEIGHBOR: [bool; 3] = [false, true, false];

const LISTENER: [bool; 3] = [false, false, true];

const OTHER: [bool; 3] = [false, false, false];

#[test]
fn classes_and_texts_of_types() {
    const ROWS: &[(Message, [bool; 3], &str)] = &[
        (Message::DstUnreachable, ERROR, "destination unreachable"),
        (Message::PktTooBig, ERROR, "packet too big"),
        (Message::TimeExceeded, ERROR, "time exceeded"),
        (Message::ParamProblem, ERROR, "parameter problem"),
        (Message::Unknown(5), ERROR, "5"),
        (Message::RouterSolicit, NEIGHBOR, "router solicitation"),
        (Message::RouterAdvert, NEIGHBOR, "router advertisement"),
        (Message::NeighborSolicit, NEIGHBOR, "neighbor solicitation"),
        (Message::NeighborAdvert, NEIGHBOR, "neighbor advert"),
        (Message::Redirect, NEIGHBOR, "redirect"),
        (Message::MldQuery, LISTENER, "multicast listener query"),
        (Message::MldReport, LISTENER, "multicast listener report"),
        (Message::EchoRequest, OTHER, "echo request"),
        (Message::EchoReply, OTHER, "echo reply"),
        (Message::RplControl, OTHER, "RPL control message"),
        (Message::Unknown(0xff), OTHER, "255"),
    ];
    for &(message, classes, text) in ROWS {
        check_type(message, classes, text);
    }
}

#[test]
fn texts_of_codes() {
    prints(
        &ParamProblem::UnrecognizedNxtHdr,
        "unrecognized next header type.",
    );
    prints(&TimeExceeded::Unknown(7), "7");
    prints(
        &DstUnreachable::FailedPolicy,
        "source address failed ingress/egress policy",
    );
}

#[test]
fn printing_fails_only_with_its_writer() {
    takes_writes(&Message::EchoReply, 1);
    takes_writes(&Message::Unknown(5), 1);
    takes_writes(&DstUnreachable::NoRoute, 1);
    takes_writes(&ParamProblem::ErroneousHdrField, 1);
    takes_writes(&TimeExceeded::HopLimitExceeded, 1);
}
