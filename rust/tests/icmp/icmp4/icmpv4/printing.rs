// Made from crates/tests_icmp/src/icmp4/icmpv4/printing.rt by rust/erase.
//! What is printed.

use super::{ECHO_REQUEST, PORT_UNREACHABLE, QUOTED_DATA, quoted};
use crate::testing::{prints, prints_each, takes_writes};
use control_wire::icmpv4::{
    DstUnreachable, Message, Packet, ParamProblem, Redirect, Repr, TimeExceeded,
};

#[test]
fn types_print_their_words() {
    const MESSAGES: &[(u8, &str)] = &[
        (0, "echo reply"),
        (3, "destination unreachable"),
        (5, "message redirect"),
        (8, "echo request"),
        (9, "router advertisement"),
        (10, "router solicitation"),
        (11, "time exceeded"),
        (12, "parameter problem"),
        (13, "timestamp"),
        (14, "timestamp reply"),
        (255, "255"),
    ];
    prints_each::<Message>(MESSAGES);
}

#[test]
fn reasons_of_unreachables_print_their_words() {
    const UNREACHABLES: &[(u8, &str)] = &[
        (0, "destination network unreachable"),
        (1, "destination host unreachable"),
        (2, "destination protocol unreachable"),
        (3, "destination port unreachable"),
        (4, "fragmentation required, and DF flag set"),
        (5, "source route failed"),
        (6, "destination network unknown"),
        (7, "destination host unknown"),
        (8, "source host isolated"),
        (9, "network administratively prohibited"),
        (10, "host administratively prohibited"),
        (11, "network unreachable for ToS"),
        (12, "host unreachable for ToS"),
        (13, "communication administratively prohibited"),
        (14, "host precedence violation"),
        (15, "precedence cutoff in effect"),
        (16, "16"),
    ];
    prints_each::<DstUnreachable>(UNREACHABLES);
}

#[test]
fn reasons_of_exceeded_times_print_their_words() {
    const TIMES: &[(u8, &str)] = &[
        (0, "time-to-live exceeded in transit"),
        (1, "fragment reassembly time exceeded"),
        (2, "2"),
    ];
    prints_each::<TimeExceeded>(TIMES);
}

#[test]
fn reasons_of_redirects_and_of_problems_print_their_words() {
    const REDIRECTS: &[(u8, &str)] = &[
        (0, "redirect for the network"),
        (1, "redirect for the host"),
        (2, "redirect for the ToS and network"),
        (3, "redirect for the ToS and host"),
        (4, "4"),
    ];
    prints_each::<Redirect>(REDIRECTS);
    const PROBLEMS: &[(u8, &str)] = &[
        (0, "pointer indicates the error"),
        (1, "missing a required option"),
        (2, "bad length"),
        (3, "3"),
    ];
    prints_each::<ParamProblem>(PROBLEMS);
}

#[test]
fn packets_print_their_message_or_why_not() {
    const ROWS: &[(&[u8], &str)] = &[
        (&ECHO_REQUEST, "ICMPv4 echo request id=4660 seq=43981 len=4"),
        (
            &[0x00, 0x00, 0xff, 0xff, 0x00, 0x00, 0x00, 0x00],
            "ICMPv4 echo reply id=0 seq=0 len=0",
        ),
        (
            &PORT_UNREACHABLE,
            "ICMPv4 destination unreachable (destination port unreachable)",
        ),
        (
            &[0x0b, 0, 0, 0, 0, 0, 0, 0],
            "ICMPv4 (wire::Error) type=TimeExceeded code=TtlExpired",
        ),
        (
            &[0x03, 15],
            "ICMPv4 (wire::Error) type=DstUnreachable code=PrecedCutoff",
        ),
        (
            &[0x03, 16],
            "ICMPv4 (wire::Error) type=DstUnreachable code=Unknown(16)",
        ),
        (
            &[0x08, 1, 0],
            "ICMPv4 (wire::Error) type=EchoRequest code=1",
        ),
        (
            &[0x2a, 0xff],
            "ICMPv4 (wire::Error) type=Unknown(42) code=255",
        ),
        (&[0x08], "ICMPv4 (wire::Error)"),
        (&[], "ICMPv4 (wire::Error)"),
    ];
    for &(octets, text) in ROWS {
        let packet = Packet::new_unchecked(octets);
        prints(&packet, text);
    }
}

#[test]
fn an_exceeded_time_prints_its_reason() {
    let time_exceeded = Repr::TimeExceeded {
        reason: TimeExceeded::FragExpired,
        header: quoted(8),
        data: &QUOTED_DATA,
    };
    let text = "ICMPv4 time exceeded (fragment reassembly time exceeded)";
    prints(&time_exceeded, text);
}

#[test]
fn a_packet_of_a_wrong_checksum_prints_why_it_is_refused() {
    let mut octets = ECHO_REQUEST;
    octets[3] ^= 1;
    let packet = Packet::new_unchecked(&mut octets[..]);
    let text = "ICMPv4 (wire::Error) type=EchoRequest code=0";
    prints(&packet, text);
}

#[test]
fn printing_fails_only_with_its_writer() {
    const ROWS: &[(&[u8], u32)] = &[
        (&ECHO_REQUEST, 6),
        (&PORT_UNREACHABLE, 3),
        (&[0x2a, 0xff], 6),
        (&[0x08], 1),
    ];
    for &(octets, calls) in ROWS {
        takes_writes(&Packet::new_unchecked(octets), calls);
    }
}

#[test]
fn types_are_printed_in_one_write() {
    for number in [0, 3, 5, 8, 9, 10, 11, 12, 13, 14, 255] {
        takes_writes(&Message::from(number), 1);
    }
}

#[test]
fn reasons_of_exceeded_times_are_printed_in_one_write() {
    for number in [0, 1, 2] {
        takes_writes(&TimeExceeded::from(number), 1);
    }
}
