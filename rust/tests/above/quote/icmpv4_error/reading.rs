// Made from crates/tests_above/src/quote/icmpv4_error/reading.rt by rust/erase.
//! What is read of errors and of their quotes.

use super::{ALL, DATAGRAM, FRAGMENTATION_REQUIRED, PARAMETER_PROBLEM, TIME_EXCEEDED, about};
use crate::testing::{same, same_of};
use control_wire::quotes::icmpv4_error::{Kind, Repr};
use control_wire::quotes::quote::Ipv4Quote;
use control_wire::{ChecksumCapabilities, Error, IpProtocol, Ipv4Address};

#[test]
fn quote_of_a_header_and_eight_bytes_is_read() {
    let rows: &[(&[u8], Repr)] = &[
        (TIME_EXCEEDED, about(Kind::TimeExceeded, 0, 0, DATAGRAM)),
        (
            FRAGMENTATION_REQUIRED,
            about(Kind::DstUnreachable, 4, 1400, DATAGRAM),
        ),
        (
            PARAMETER_PROBLEM,
            about(Kind::ParamProblem, 0, 0x14000000, &PARAMETER_PROBLEM[8..]),
        ),
    ];
    for &(octets, error) in rows {
        same_of(octets, Repr::parse(octets, &ALL), Ok(error));
    }
}

#[test]
fn error_that_is_cut_is_refused_where_its_quote_is_too_short() {
    let caps = ChecksumCapabilities::ignored();
    for len in 0..TIME_EXCEEDED.len() {
        same_of(len, Repr::parse(&TIME_EXCEEDED[..len], &caps), Err(Error));
    }
    same(Repr::parse(&TIME_EXCEEDED[..35], &ALL), Err(Error));
}

#[test]
fn error_without_a_datagram_of_version_4_is_refused() {
    let caps = ChecksumCapabilities::ignored();
    let mut octets = [0; 36];
    octets.copy_from_slice(TIME_EXCEEDED);
    for first in [0x44, 0x35, 0x55, 0x65, 0x48, 0x05] {
        octets[8] = first;
        same_of(first, Repr::parse(&octets, &caps), Err(Error));
    }
    octets[8] = 0x45;
    for kind in [0, 1, 2, 6, 8, 9, 10, 13, 255] {
        octets[0] = kind;
        same_of(kind, Repr::parse(&octets, &caps), Err(Error));
    }
}

#[test]
fn mtu_of_the_next_hop() {
    let rows: &[(Kind, u8, u32, Option<u16>)] = &[
        (Kind::DstUnreachable, 4, 1400, Some(1400)),
        (Kind::DstUnreachable, 4, 0xabcd05dc, Some(1500)),
        (Kind::DstUnreachable, 4, 0, None),
        (Kind::DstUnreachable, 3, 1400, None),
        (Kind::TimeExceeded, 4, 1400, None),
    ];
    for &(kind, code, rest, mtu) in rows {
        same_of(code, about(kind, code, rest, DATAGRAM).next_hop_mtu(), mtu);
    }
}

#[test]
fn gateway_and_pointer_are_those_of_their_types() {
    let rows: &[(Kind, Option<Ipv4Address>, Option<u8>)] = &[
        (Kind::DstUnreachable, None, None),
        (Kind::SourceQuench, None, None),
        (
            Kind::Redirect,
            Some(Ipv4Address::new(20, 51, 100, 254)),
            None,
        ),
        (Kind::TimeExceeded, None, None),
        (Kind::ParamProblem, None, Some(20)),
    ];
    for &(kind, gateway, pointer) in rows {
        let error = about(kind, 0, 0x143364fe, DATAGRAM);
        same_of(kind, error.gateway(), gateway);
        same_of(kind, error.pointer(), pointer);
    }
}

#[test]
fn fields_of_a_quoted_probe() {
    let probe = Ipv4Quote {
        type_of_service: 0,
        total_len: 60,
        ident: 0x1234,
        dont_frag: true,
        more_frags: false,
        frag_offset: 0,
        hop_limit: 1,
        next_header: IpProtocol::Udp,
        src_addr: Ipv4Address::new(192, 0, 2, 1),
        dst_addr: Ipv4Address::new(198, 51, 100, 2),
        options: &[],
        payload: &DATAGRAM[20..],
    };
    same(Ipv4Quote::parse(DATAGRAM), Ok(probe));
    same(Ipv4Quote::parse(&DATAGRAM[..27]), Err(Error));
}

#[test]
fn options_of_a_quoted_header() {
    let quoted = &PARAMETER_PROBLEM[8..];
    let report = Ipv4Quote {
        type_of_service: 0xc0,
        total_len: 32,
        ident: 0x1234,
        dont_frag: false,
        more_frags: false,
        frag_offset: 0,
        hop_limit: 1,
        next_header: IpProtocol::Igmp,
        src_addr: Ipv4Address::new(10, 0, 0, 1),
        dst_addr: Ipv4Address::new(224, 0, 0, 22),
        options: &[0x94, 0x04, 0x00, 0x00],
        payload: &[0x22, 0x00, 0xf9, 0xf2, 0x00, 0x00, 0x00, 0x01],
    };
    same(Ipv4Quote::parse(quoted), Ok(report));
}

#[test]
fn padding_and_extensions_stand_in_the_payload_of_a_quote() {
    // The datagram, zeros up to 128 bytes, and an extension of 12: its header, and one MPLS label of an object of 8
    // bytes (RFC 4884 section 7, RFC 4950).
    let mut quoted = [0; 140];
    quoted[..28].copy_from_slice(DATAGRAM);
    quoted[3] = 28;
    quoted[128..].copy_from_slice(&[0x20, 0, 0, 0, 0, 8, 1, 1, 0x00, 0x01, 0x01, 0x01]);
    let quote = Ipv4Quote::parse(&quoted).ok();
    same(quote.is_some(), true);
    if let Some(quote) = quote {
        same(quote.total_len, 28);
        same(quote.payload, &quoted[20..]);
    }
}
