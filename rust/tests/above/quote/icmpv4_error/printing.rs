// Made from crates/tests_above/src/quote/icmpv4_error/printing.rt by rust/erase.
//! What errors and quotes print.

use super::{DATAGRAM, about};
use crate::testing::{prints, same, same_of};
use control_wire::quotes::icmpv4_error::Kind;
use control_wire::quotes::quote::Ipv4Quote;

#[test]
fn what_a_quote_prints() {
    let quote = Ipv4Quote::parse(DATAGRAM).ok();
    let text = "IPv4 quote type_of_service=0 total_len=60 ident=4660 dont_frag=true more_frags=false \
                frag_offset=0 hop_limit=1 next_header=17 src_addr=192.0.2.1 dst_addr=198.51.100.2 \
                options=0 payload=8";
    same(quote.is_some(), true);
    if let Some(quote) = quote {
        prints(&quote, text);
    }
}

#[test]
fn what_codes_say() {
    // Up to the first code that says nothing.
    const ROWS: &[(Kind, u8, Option<&str>)] = &[
        (
            Kind::DstUnreachable,
            0,
            Some("destination network unreachable"),
        ),
        (
            Kind::DstUnreachable,
            1,
            Some("destination host unreachable"),
        ),
        (
            Kind::DstUnreachable,
            2,
            Some("destination protocol unreachable"),
        ),
        (
            Kind::DstUnreachable,
            3,
            Some("destination port unreachable"),
        ),
        (
            Kind::DstUnreachable,
            4,
            Some("fragmentation required, and DF flag set"),
        ),
        (Kind::DstUnreachable, 5, Some("source route failed")),
        (Kind::DstUnreachable, 6, Some("destination network unknown")),
        (Kind::DstUnreachable, 7, Some("destination host unknown")),
        (Kind::DstUnreachable, 8, Some("source host isolated")),
        (
            Kind::DstUnreachable,
            9,
            Some("network administratively prohibited"),
        ),
        (
            Kind::DstUnreachable,
            10,
            Some("host administratively prohibited"),
        ),
        (
            Kind::DstUnreachable,
            11,
            Some("network unreachable for ToS"),
        ),
        (Kind::DstUnreachable, 12, Some("host unreachable for ToS")),
        (
            Kind::DstUnreachable,
            13,
            Some("communication administratively prohibited"),
        ),
        (Kind::DstUnreachable, 14, Some("host precedence violation")),
        (
            Kind::DstUnreachable,
            15,
            Some("precedence cutoff in effect"),
        ),
        (Kind::DstUnreachable, 16, None),
        (Kind::SourceQuench, 0, None),
        (Kind::Redirect, 0, Some("redirect for the network")),
        (Kind::Redirect, 1, Some("redirect for the host")),
        (Kind::Redirect, 2, Some("redirect for the ToS and network")),
        (Kind::Redirect, 3, Some("redirect for the ToS and host")),
        (Kind::Redirect, 4, None),
        (
            Kind::TimeExceeded,
            0,
            Some("time-to-live exceeded in transit"),
        ),
        (
            Kind::TimeExceeded,
            1,
            Some("fragment reassembly time exceeded"),
        ),
        (Kind::TimeExceeded, 2, None),
        (Kind::ParamProblem, 0, Some("pointer indicates the error")),
        (Kind::ParamProblem, 1, Some("missing a required option")),
        (Kind::ParamProblem, 2, Some("bad length")),
        (Kind::ParamProblem, 3, None),
    ];
    for row in ROWS {
        let error = about(row.0, row.1, 0, DATAGRAM);
        same_of((row.0, row.1), error.reason(), row.2);
    }
}

#[test]
fn what_errors_print() {
    let rows: &[(Kind, u8, u32, &str)] = &[
        (
            Kind::DstUnreachable,
            3,
            1400,
            "ICMPv4 destination unreachable code=3 (destination port unreachable) quoted=28",
        ),
        (
            Kind::SourceQuench,
            0,
            u32::MAX,
            "ICMPv4 source quench code=0 quoted=28",
        ),
        (
            Kind::TimeExceeded,
            1,
            u32::MAX,
            "ICMPv4 time exceeded code=1 (fragment reassembly time exceeded) quoted=28",
        ),
        (
            Kind::TimeExceeded,
            2,
            u32::MAX,
            "ICMPv4 time exceeded code=2 quoted=28",
        ),
    ];
    print_so(rows);
}

#[test]
fn errors_print_what_they_tell_behind_the_checksum() {
    // An MTU alone, and with other bytes unused; none; gateways and pointers, also of codes that say nothing.
    let rows: &[(Kind, u8, u32, &str)] = &[
        (
            Kind::DstUnreachable,
            4,
            1400,
            "ICMPv4 destination unreachable code=4 (fragmentation required, and DF flag set) mtu=1400 quoted=28",
        ),
        (
            Kind::DstUnreachable,
            4,
            0xabcdffff,
            "ICMPv4 destination unreachable code=4 (fragmentation required, and DF flag set) mtu=65535 quoted=28",
        ),
        (
            Kind::DstUnreachable,
            4,
            0xabcd0000,
            "ICMPv4 destination unreachable code=4 (fragmentation required, and DF flag set) quoted=28",
        ),
        (
            Kind::Redirect,
            1,
            0xc0000201,
            "ICMPv4 redirect code=1 (redirect for the host) gateway=192.0.2.1 quoted=28",
        ),
        (
            Kind::Redirect,
            4,
            0,
            "ICMPv4 redirect code=4 gateway=0.0.0.0 quoted=28",
        ),
        (
            Kind::ParamProblem,
            0,
            0x14ffffff,
            "ICMPv4 parameter problem code=0 (pointer indicates the error) pointer=20 quoted=28",
        ),
        (
            Kind::ParamProblem,
            2,
            0,
            "ICMPv4 parameter problem code=2 (bad length) pointer=0 quoted=28",
        ),
        (
            Kind::ParamProblem,
            3,
            u32::MAX,
            "ICMPv4 parameter problem code=3 pointer=255 quoted=28",
        ),
    ];
    print_so(rows);
}

// Ends the test unless errors about the datagram, with this code and this behind the checksum, print this.
fn print_so(rows: &[(Kind, u8, u32, &str)]) {
    for &(kind, code, rest, text) in rows {
        prints(&about(kind, code, rest, DATAGRAM), text);
        same_of(code, Kind::from_number(kind.number()), Some(kind));
    }
}
