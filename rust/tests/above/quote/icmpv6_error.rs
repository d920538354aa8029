// Made from crates/tests_above/src/quote/icmpv6_error.rt by rust/erase.
//! Errors of ICMPv6: what a path MTU discovery gets, and what a host sends.

use crate::testing::{prints, same, same_of};
use control_wire::extensions::SplitRefusal;
use control_wire::quotes::icmpv6_error::{Kind, MAX_QUOTED, Refusal, Repr};
use control_wire::quotes::quote;
use control_wire::quotes::quote::Ipv6Quote;
use control_wire::{Checksum, ChecksumCapabilities, Error, IpProtocol, Ipv6Address};

// The addresses that the error is sent from and to.
fn from() -> Ipv6Address {
    Ipv6Address::new(0xfe80, 0, 0, 0, 0, 0, 0, 1)
}

fn to() -> Ipv6Address {
    Ipv6Address::new(0xfe80, 0, 0, 0, 0, 0, 0, 2)
}

// A packet that is too big for a link of 1,280 bytes: a header with a traffic class and a flow label, and four bytes of
// TCP behind it.
const PACKET_TOO_BIG: &[u8] = &[
    0x02, 0x00, 0x8f, 0x1c, 0x00, 0x00, 0x05, 0x00, 0x6b, 0xb1, 0x23, 0x45, 0x05, 0xb4, 0x06, 0x3f,
    0xfe, 0x80, 0x00, 0x00, 0x00, 0x00, 0x00, 0x00, 0x00, 0x00, 0x00, 0x00, 0x00, 0x00, 0x00, 0x02,
    0xfe, 0x80, 0x00, 0x00, 0x00, 0x00, 0x00, 0x00, 0x00, 0x00, 0x00, 0x00, 0x00, 0x00, 0x00, 0x01,
    0xd4, 0x31, 0x00, 0x50,
];

const ALL: ChecksumCapabilities = ChecksumCapabilities {
    ipv4: Checksum::Both,
    udp: Checksum::Both,
    tcp: Checksum::Both,
    icmpv4: Checksum::Both,
    icmpv6: Checksum::Both,
};

// An error of this kind, with this in the four bytes behind the checksum.
fn about(kind: Kind, code: u8, rest: u32, quoted: &[u8]) -> Repr<'_> {
    Repr {
        kind,
        code,
        rest,
        quoted,
    }
}

#[test]
fn packet_too_big_is_read_with_its_quote() {
    let error = about(Kind::PktTooBig, 0, 1280, &PACKET_TOO_BIG[8..]);
    same(Repr::parse(&from(), &to(), PACKET_TOO_BIG, &ALL), Ok(error));
    same(
        Repr::parse(&from(), &from(), PACKET_TOO_BIG, &ALL),
        Err(Error),
    );
    same(error.mtu(), Some(1280));
    same(about(Kind::ParamProblem, 0, 1280, &[]).mtu(), None);
    let packet = Ipv6Quote {
        traffic_class: 0xbb,
        flow_label: 0x12345,
        payload_len: 1460,
        next_header: IpProtocol::Tcp,
        hop_limit: 63,
        src_addr: to(),
        dst_addr: from(),
        payload: &[0xd4, 0x31, 0x00, 0x50],
    };
    same(Ipv6Quote::parse(error.quoted), Ok(packet));
}

#[test]
fn padding_and_extensions_stand_in_the_payload_of_a_quote() {
    // A header without a payload, zeros up to 128 bytes, and an extension of 4: its header alone (RFC 4884 section 7).
    let mut quoted = [0; 132];
    quoted[0] = 0x60;
    quoted[128] = 0x20;
    let quote = Ipv6Quote::parse(&quoted).ok();
    same(quote.is_some(), true);
    if let Some(quote) = quote {
        same(quote.payload_len, 0);
        same(quote.payload, &quoted[40..]);
    }
}

#[test]
fn length_of_an_error_tells_extensions_from_its_quote() {
    // Words of 8 bytes in the first byte behind the checksum, of the types that may have extensions (RFC 4884 section
    // 4): 16 of them are 128 bytes.
    let quoted = [0x60; 132];
    let rows: &[(Kind, u32, Result<usize, SplitRefusal>)] = &[
        (Kind::TimeExceeded, 0x1000_0000, Ok(128)),
        (Kind::DstUnreachable, 0x10ff_ffff, Ok(128)),
        (Kind::DstUnreachable, 0x00ff_ffff, Ok(132)),
        (Kind::TimeExceeded, 0x0f00_0000, Err(SplitRefusal::Short)),
        (Kind::TimeExceeded, 0x1100_0000, Err(SplitRefusal::Cut)),
        (Kind::PktTooBig, 0x1000_0000, Ok(132)),
        (Kind::ParamProblem, 0x1000_0000, Ok(132)),
    ];
    for &(kind, rest, want) in rows {
        match about(kind, 0, rest, &quoted).parts() {
            Ok(parts) => same_of(rest, Ok(parts.quoted.len()), want),
            Err(refusal) => same_of(rest, Err(refusal), want),
        }
    }
}

#[test]
fn upper_protocol_stands_behind_extension_headers() {
    // Hop-by-hop options, a routing header of 16 bytes, and a first fragment of a datagram of UDP (RFC 8200 section 4).
    let headers = [
        43, 0, 1, 4, 0, 0, 0, 0, 44, 1, 4, 0, 0, 0, 0, 0, 0, 0, 0, 0, 0, 0, 0, 0, //
        17, 0, 0, 1, 0, 0, 0, 7, 0x9c, 0x40, 0, 53,
    ];
    let rows: &[(IpProtocol, u16, usize, usize, Option<(IpProtocol, usize)>)] = &[
        (IpProtocol::HopByHop, 36, 0, 36, Some((IpProtocol::Udp, 4))),
        (IpProtocol::HopByHop, 36, 0, 32, Some((IpProtocol::Udp, 0))),
        (IpProtocol::HopByHop, 36, 0, 31, None),
        (IpProtocol::HopByHop, 36, 0, 23, None),
        (IpProtocol::HopByHop, 36, 0, 7, None),
        (IpProtocol::HopByHop, 36, 0, 0, None),
        // What stands behind the packet's own payload is not read.
        (IpProtocol::HopByHop, 34, 0, 36, Some((IpProtocol::Udp, 2))),
        (IpProtocol::HopByHop, 31, 0, 36, None),
        (IpProtocol::Ipv6Opts, 0, 0, 36, None),
        // A jumbogram (RFC 2675 section 2).
        (IpProtocol::HopByHop, 0, 0, 36, Some((IpProtocol::Udp, 4))),
        (IpProtocol::Ipv6Frag, 36, 24, 36, Some((IpProtocol::Udp, 4))),
        // A later fragment, whose offset is one unit.
        (IpProtocol::Ipv6Frag, 36, 0, 8, None),
        (
            IpProtocol::Ipv6NoNxt,
            36,
            0,
            8,
            Some((IpProtocol::Ipv6NoNxt, 8)),
        ),
    ];
    for &(next_header, payload_len, start, end, want) in rows {
        let quote = Ipv6Quote {
            traffic_class: 0,
            flow_label: 0,
            payload_len,
            next_header,
            hop_limit: 64,
            src_addr: to(),
            dst_addr: from(),
            payload: &headers[start..end],
        };
        match quote.upper() {
            Some(upper) => same_of(
                (start, end),
                Some((upper.protocol, upper.octets.len())),
                want,
            ),
            None => same_of((start, end), None, want),
        }
    }
}

#[test]
fn error_is_refused_where_its_quote_has_no_header_of_version_6() {
    let caps = ChecksumCapabilities::ignored();
    for len in 0..48 {
        same_of(
            len,
            Repr::parse(&from(), &to(), &PACKET_TOO_BIG[..len], &caps),
            Err(Error),
        );
    }
    let mut octets = [0; 52];
    octets.copy_from_slice(PACKET_TOO_BIG);
    octets[8] = 0x4b;
    same(Repr::parse(&from(), &to(), &octets, &caps), Err(Error));
    same(Ipv6Quote::parse(&octets[8..]), Err(Error));
    octets[8] = 0x6b;
    for kind in [0, 5, 128, 135, 255] {
        octets[0] = kind;
        same_of(
            kind,
            Repr::parse(&from(), &to(), &octets, &caps),
            Err(Error),
        );
    }
}

#[test]
fn pointer_is_that_of_a_parameter_problem() {
    for kind in [Kind::DstUnreachable, Kind::PktTooBig, Kind::TimeExceeded] {
        same_of(kind, about(kind, 0, 1280, &[]).pointer(), None);
    }
    let error = about(Kind::ParamProblem, 0, 1280, &[]);
    same(error.pointer(), Some(1280));
}

#[test]
fn error_is_written_over_other_octets() {
    for before in [0x00, 0x2a, 0xff] {
        let mut octets = [before; 52];
        let error = about(Kind::PktTooBig, 0, 1280, &PACKET_TOO_BIG[8..]);
        same_of(before, error.buffer_len(), 52);
        error.emit_into(&from(), &to(), &mut octets, &ALL);
        same_of(before, &octets[..], PACKET_TOO_BIG);
    }
}

#[test]
fn error_quotes_at_most_1_232_bytes() {
    let mut packet = [0x2a; 1500];
    packet[..44].copy_from_slice(&PACKET_TOO_BIG[8..]);
    let error = about(Kind::TimeExceeded, 0, 0, &packet);
    same(error.buffer_len(), 1240);
    let mut octets = [0xa5; 1240];
    error.emit_into(&from(), &to(), &mut octets, &ALL);
    let written = about(Kind::TimeExceeded, 0, 0, &packet[..MAX_QUOTED]);
    same(Repr::parse(&from(), &to(), &octets, &ALL), Ok(written));
}

// Why the octets are refused as an error between these two, with these checksums verified.
fn why(octets: &[u8], caps: &ChecksumCapabilities) -> Option<Refusal> {
    Repr::refusal(&from(), &to(), octets, caps)
}

#[test]
fn errors_that_are_refused() {
    // How many octets there are, the type, the first octet that is quoted.
    const ROWS: &[(usize, u8, u8, Option<Refusal>)] = &[
        (52, 2, 0x6b, None),
        (48, 2, 0x60, None),
        (7, 2, 0x6b, Some(Refusal::Short)),
        (47, 128, 0x6b, Some(Refusal::UnknownType(128))),
        (47, 2, 0x4b, Some(Refusal::Quote(quote::Refusal::Short))),
        (
            48,
            2,
            0x4b,
            Some(Refusal::Quote(quote::Refusal::Version(4))),
        ),
    ];
    let caps = ChecksumCapabilities::ignored();
    for row in ROWS {
        let mut octets = [0; 52];
        octets.copy_from_slice(PACKET_TOO_BIG);
        octets[0] = row.1;
        octets[8] = row.2;
        same_of(row.0, why(&octets[..row.0.min(52)], &caps), row.3);
    }
    let told = Repr::refusal(&from(), &from(), PACKET_TOO_BIG, &ALL);
    same(told, Some(Refusal::Checksum));
    same(why(PACKET_TOO_BIG, &ALL), None);
    same(Ipv6Quote::refusal(&PACKET_TOO_BIG[8..]), None);
    same(
        Ipv6Quote::refusal(&PACKET_TOO_BIG[8..47]),
        Some(quote::Refusal::Short),
    );
}

// Ends the test where a reason is told of an error that is read, or none of another.
fn check_told(octets: &[u8]) {
    let caps = ChecksumCapabilities::ignored();
    let read = Repr::parse(&from(), &to(), octets, &caps).is_ok();
    same_of(octets, why(octets, &caps).is_none(), read);
    let read = Repr::parse(&from(), &to(), octets, &ALL).is_ok();
    same_of(octets, why(octets, &ALL).is_none(), read);
}

#[test]
fn a_reason_is_told_of_just_the_damaged_errors_that_are_refused() {
    for len in 0..=PACKET_TOO_BIG.len() {
        check_told(&PACKET_TOO_BIG[..len]);
    }
    for at in 0..PACKET_TOO_BIG.len() {
        for value in 0..=255u8 {
            let mut octets = [0; 52];
            octets.copy_from_slice(PACKET_TOO_BIG);
            octets[at] = value;
            check_told(&octets);
        }
    }
}

#[test]
fn reasons_print_a_phrase() {
    const ROWS: &[(Refusal, &str)] = &[
        (Refusal::Short, "fewer than 8 bytes"),
        (Refusal::Checksum, "the checksum does not hold"),
        (
            Refusal::UnknownType(128),
            "type 128 is not that of an error",
        ),
        (
            Refusal::Quote(quote::Refusal::Version(4)),
            "the quoted header is of version 4",
        ),
    ];
    for row in ROWS {
        prints(&row.0, row.1);
    }
}

#[test]
fn what_a_quote_prints() {
    let quote = Ipv6Quote::parse(&PACKET_TOO_BIG[8..]).ok();
    let text = "IPv6 quote traffic_class=187 flow_label=74565 payload_len=1460 next_header=6 hop_limit=63 \
                src_addr=fe80::2 dst_addr=fe80::1 payload=4";
    same(quote.is_some(), true);
    if let Some(quote) = quote {
        prints(&quote, text);
    }
}

#[test]
fn what_codes_say() {
    // Up to the first code that says nothing.
    const ROWS: &[(Kind, u8, Option<&str>)] = &[
        (Kind::DstUnreachable, 0, Some("no route to destination")),
        (
            Kind::DstUnreachable,
            1,
            Some("communication with destination administratively prohibited"),
        ),
        (
            Kind::DstUnreachable,
            2,
            Some("beyond scope of source address"),
        ),
        (Kind::DstUnreachable, 3, Some("address unreachable")),
        (Kind::DstUnreachable, 4, Some("port unreachable")),
        (
            Kind::DstUnreachable,
            5,
            Some("source address failed ingress/egress policy"),
        ),
        (Kind::DstUnreachable, 6, Some("reject route to destination")),
        (Kind::DstUnreachable, 7, None),
        (Kind::PktTooBig, 0, None),
        (Kind::TimeExceeded, 0, Some("hop limit exceeded in transit")),
        (
            Kind::TimeExceeded,
            1,
            Some("fragment reassembly time exceeded"),
        ),
        (Kind::TimeExceeded, 2, None),
        (Kind::ParamProblem, 0, Some("erroneous header field.")),
        (
            Kind::ParamProblem,
            1,
            Some("unrecognized next header type."),
        ),
        (Kind::ParamProblem, 2, Some("unrecognized IPv6 option.")),
        (Kind::ParamProblem, 3, None),
    ];
    for row in ROWS {
        let error = about(row.0, row.1, 0, &PACKET_TOO_BIG[8..]);
        same_of((row.0, row.1), error.reason(), row.2);
    }
}

#[test]
fn what_errors_print() {
    // An MTU and a pointer are told by their types alone, also of codes that say nothing.
    let rows: &[(Kind, u8, u32, &str)] = &[
        (
            Kind::DstUnreachable,
            4,
            1280,
            "ICMPv6 destination unreachable code=4 (port unreachable) quoted=44",
        ),
        (
            Kind::DstUnreachable,
            7,
            1280,
            "ICMPv6 destination unreachable code=7 quoted=44",
        ),
        (
            Kind::PktTooBig,
            0,
            1280,
            "ICMPv6 packet too big code=0 mtu=1280 quoted=44",
        ),
        (
            Kind::PktTooBig,
            1,
            0,
            "ICMPv6 packet too big code=1 mtu=0 quoted=44",
        ),
        (
            Kind::TimeExceeded,
            1,
            1280,
            "ICMPv6 time exceeded code=1 (fragment reassembly time exceeded) quoted=44",
        ),
        (
            Kind::ParamProblem,
            2,
            42,
            "ICMPv6 parameter problem code=2 (unrecognized IPv6 option.) pointer=42 quoted=44",
        ),
        (
            Kind::ParamProblem,
            3,
            u32::MAX,
            "ICMPv6 parameter problem code=3 pointer=4294967295 quoted=44",
        ),
    ];
    for &(kind, code, rest, text) in rows {
        let error = about(kind, code, rest, &PACKET_TOO_BIG[8..]);
        prints(&error, text);
        same_of(code, Kind::from_number(kind.number()), Some(kind));
    }
}
