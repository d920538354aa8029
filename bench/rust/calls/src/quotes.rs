//! Errors of ICMP with what they quote.

use crate::measure::{prints, reads, writes};
use crate::messages::{Got, ipv4_header, ipv6_header};
use crate::random::many;
use control_wire::ChecksumCapabilities;
use control_wire::quotes::quote::{Ipv4Quote, Ipv6Quote};
use control_wire::quotes::{icmpv4_error, icmpv6_error};

// The kinds of error.
const KINDS: [icmpv4_error::Kind; 5] = [
    icmpv4_error::Kind::DstUnreachable,
    icmpv4_error::Kind::SourceQuench,
    icmpv4_error::Kind::Redirect,
    icmpv4_error::Kind::TimeExceeded,
    icmpv4_error::Kind::ParamProblem,
];

const KINDS_V6: [icmpv6_error::Kind; 4] = [
    icmpv6_error::Kind::DstUnreachable,
    icmpv6_error::Kind::PktTooBig,
    icmpv6_error::Kind::TimeExceeded,
    icmpv6_error::Kind::ParamProblem,
];

fn errors(seed: u64) -> Vec<icmpv4_error::Repr<'static>> {
    many(seed, |random, place| {
        let mut quoted = vec![0; 20];
        ipv4_header(random, 60).emit_into(&mut quoted, &ChecksumCapabilities::default());
        quoted.extend_from_slice(&random.octets(8));
        icmpv4_error::Repr {
            kind: KINDS[place % 5],
            code: random.octet() % 4,
            rest: random.u32(),
            quoted: quoted.leak(),
        }
    })
}

fn errors_v6(seed: u64) -> Vec<icmpv6_error::Repr<'static>> {
    many(seed, |random, place| {
        let mut quoted = vec![0; 40];
        ipv6_header(random, 100).emit_into(&mut quoted);
        quoted.extend_from_slice(&random.octets(48));
        let kind = KINDS_V6[place % 4];
        icmpv6_error::Repr {
            kind,
            code: if kind == icmpv6_error::Kind::PktTooBig {
                0
            } else {
                random.octet() % 4
            },
            rest: random.u32(),
            quoted: quoted.leak(),
        }
    })
}

/// The cases.
pub fn cases() {
    let caps = &ChecksumCapabilities::default();
    let errors = errors(40);
    let octets: Vec<Vec<u8>> = errors
        .iter()
        .map(|error| {
            let mut octets = vec![0; error.buffer_len()];
            error.emit_into(&mut octets, caps);
            octets
        })
        .collect();
    reads("icmpv4_quoting_error_parse", &octets, |octets| {
        icmpv4_error::Repr::parse(octets, caps)
    });
    writes(
        "icmpv4_quoting_error_emit",
        &errors,
        icmpv4_error::Repr::buffer_len,
        |error, out| error.emit_into(out, caps),
    );
    prints("icmpv4_quoting_error_display", &errors);
    reads("ipv4_quote_parse", &errors, |error| {
        Ipv4Quote::parse(error.quoted)
    });
    reads("icmpv4_quoting_error_parts", &errors, |error| error.parts());
    let errors_v6 = errors_v6(41);
    let got = got(&errors_v6);
    reads("icmpv6_quoting_error_parse", &got, |got| {
        icmpv6_error::Repr::parse(&got.source, &got.destination, &got.octets, caps)
    });
    writes(
        "icmpv6_quoting_error_emit",
        &errors_v6,
        icmpv6_error::Repr::buffer_len,
        |error, out| error.emit_into(&got[0].source, &got[0].destination, out, caps),
    );
    prints("icmpv6_quoting_error_display", &errors_v6);
    reads("ipv6_quote_parse", &errors_v6, |error| {
        Ipv6Quote::parse(error.quoted)
    });
    reads("icmpv6_quoting_error_parts", &errors_v6, |error| {
        error.parts()
    });
    let quotes: Vec<Ipv6Quote<'_>> = errors_v6
        .iter()
        .filter_map(|error| Ipv6Quote::parse(error.quoted).ok())
        .collect();
    reads("ipv6_quote_upper", &quotes, |quote| quote.upper());
    #[cfg(feature = "later")]
    later(&octets, &got);
}

// The octets of errors, with their addresses.
fn got(errors: &[icmpv6_error::Repr<'_>]) -> Vec<Got> {
    let addresses = many(42, |random, _| (random.ipv6(), random.ipv6()));
    errors
        .iter()
        .zip(addresses)
        .map(|(error, (source, destination))| {
            let mut octets = vec![0; error.buffer_len()];
            let caps = ChecksumCapabilities::default();
            error.emit_into(&source, &destination, &mut octets, &caps);
            Got {
                source,
                destination,
                octets,
            }
        })
        .collect()
}

// The octets with a fault: of the checksum, cut, or of another type.
#[cfg(feature = "later")]
fn damage(octets: &[u8], place: usize) -> Vec<u8> {
    let mut octets = octets.to_vec();
    match place % 3 {
        0 => octets[2] ^= 1,
        1 => octets.truncate(place % 8),
        _ => octets[0] = 99,
    }
    octets
}

#[cfg(feature = "later")]
fn later(octets: &[Vec<u8>], got: &[Got]) {
    use control_wire::quotes::message::{Icmpv4Message, Icmpv6Message};
    let caps = &ChecksumCapabilities::default();
    let damaged: Vec<Vec<u8>> = octets
        .iter()
        .zip(0..)
        .map(|(octets, place)| damage(octets, place))
        .collect();
    let damaged_v6: Vec<Got> = got
        .iter()
        .zip(0..)
        .map(|(got, place)| Got {
            octets: damage(&got.octets, place),
            ..*got
        })
        .collect();
    reads("icmpv4_quoting_error_refusal", &damaged, |octets| {
        icmpv4_error::Repr::refusal(octets, caps)
    });
    reads("icmpv4_message_parse", octets, |octets| {
        Icmpv4Message::parse(octets, caps)
    });
    reads("icmpv4_message_parse_or_refusal", octets, |octets| {
        Icmpv4Message::parse_or_refusal(octets, caps)
    });
    reads("icmpv4_message_refusal", &damaged, |octets| {
        Icmpv4Message::refusal(octets, caps)
    });
    reads("icmpv6_quoting_error_refusal", &damaged_v6, |got| {
        icmpv6_error::Repr::refusal(&got.source, &got.destination, &got.octets, caps)
    });
    reads("icmpv6_message_parse", got, |got| {
        Icmpv6Message::parse(&got.source, &got.destination, &got.octets, caps)
    });
    reads("icmpv6_message_parse_or_refusal", got, |got| {
        Icmpv6Message::parse_or_refusal(&got.source, &got.destination, &got.octets, caps)
    });
    reads("icmpv6_message_refusal", &damaged_v6, |got| {
        Icmpv6Message::refusal(&got.source, &got.destination, &got.octets, caps)
    });
    reads("ipv4_quote_refusal", octets, |octets| {
        Ipv4Quote::refusal(&octets[9..octets.len() - 10])
    });
    reads("ipv6_quote_refusal", got, |got| {
        Ipv6Quote::refusal(&got.octets[9..])
    });
}
