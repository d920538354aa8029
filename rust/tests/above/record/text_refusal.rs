// Made from crates/tests_above/src/record/text_refusal.rt by rust/erase.
//! Records that are refused, and what their refusals print.

use super::text::{EXAMPLE, MESSAGE, record};
#[allow(unused_imports)]
use crate::rattle_std::prelude::*;
use crate::testing::{prints, same};
use control_wire::dns::{Packet, Type};
use control_wire::record::name::refusal::NameRefusal;
use control_wire::record::rdata::refusal::DataRefusal;
use control_wire::record::refusal::PartRefusal;
use control_wire::record::text::refusal::TextRefusal;
use control_wire::record::types;

#[test]
fn records_that_are_refused() {
    const CUT: NameRefusal = NameRefusal::Part(PartRefusal::Cut);
    const AHEAD: NameRefusal = NameRefusal::Pointer(255);
    let packet = Packet::new_unchecked(MESSAGE);
    let rows: [(&[u8], Type, &[u8], TextRefusal); 8] = [
        (b"\x01", types::A, b"", TextRefusal::Owner(CUT)),
        (
            b"\xc0\xff",
            types::A,
            b"\xc0\0\x02\x01",
            TextRefusal::Owner(AHEAD),
        ),
        (
            EXAMPLE,
            types::A,
            b"\xc0\0\x02",
            TextRefusal::Data(DataRefusal::Address(4)),
        ),
        (
            EXAMPLE,
            types::MX,
            b"\0\x01\x01a",
            TextRefusal::Data(DataRefusal::Name(PartRefusal::Cut)),
        ),
        (
            EXAMPLE,
            types::NS,
            b"\xc0\xff",
            TextRefusal::DataName(AHEAD),
        ),
        (
            EXAMPLE,
            types::MX,
            b"\0\x01\xc0\xff",
            TextRefusal::DataName(AHEAD),
        ),
        (
            EXAMPLE,
            types::SRV,
            b"\0\x01\0\x01\0\x01\xc0\xff",
            TextRefusal::DataName(AHEAD),
        ),
        (
            EXAMPLE,
            types::SOA,
            b"\0\xc0\xff\0\0\0\x01\0\0\0\x02\0\0\0\x03\0\0\0\x04\0\0\0\x05",
            TextRefusal::DataName(AHEAD),
        ),
    ];
    for (name, type_, octets, refusal) in rows {
        let read = record(name, type_, 1, octets).text(&packet);
        same(read.err(), Some(refusal));
    }
}

// No pointer is followed before the whole of the data is there.
#[test]
fn fields_that_are_refused() {
    const AHEAD: NameRefusal = NameRefusal::Pointer(255);
    let packet = Packet::new_unchecked(MESSAGE);
    let rows: [(Type, &[u8], TextRefusal); 10] = [
        (types::MINFO, b"\xc0\xff\0", TextRefusal::DataName(AHEAD)),
        (types::RP, b"\0\xc0\xff", TextRefusal::DataName(AHEAD)),
        (
            types::PX,
            b"\0\x0a\xc0\x0c\xc0\xff",
            TextRefusal::DataName(AHEAD),
        ),
        (
            types::NAPTR,
            b"\0\x64\0\x0a\0\0\0\xc0\xff",
            TextRefusal::DataName(AHEAD),
        ),
        (
            types::NSEC,
            b"\xc0\xff\0\x01\x40",
            TextRefusal::DataName(AHEAD),
        ),
        (
            types::NXT,
            b"\xc0\xff\x80",
            TextRefusal::Data(DataRefusal::Types),
        ),
        (
            types::NSEC,
            b"\xc0\xff\0\0",
            TextRefusal::Data(DataRefusal::Types),
        ),
        (
            types::KX,
            b"\0\x01\xc0\xff\0",
            TextRefusal::Data(DataRefusal::BehindName),
        ),
        (
            types::PX,
            b"\0\x0a\xc0\xff",
            TextRefusal::Data(DataRefusal::SecondName(PartRefusal::Cut)),
        ),
        (
            types::NAPTR,
            b"\0\x64\0\x0a\0\0\xc0\xff",
            TextRefusal::Data(DataRefusal::String),
        ),
    ];
    for (type_, octets, refusal) in rows {
        let read = record(EXAMPLE, type_, 1, octets).text(&packet);
        same(read.err(), Some(refusal));
    }
}

#[test]
fn refusals_print() {
    let long = NameRefusal::TooLong;
    let rows: [(TextRefusal, &str); 3] = [
        (
            TextRefusal::Owner(long),
            "the owner: the name has more than 255 octets",
        ),
        (
            TextRefusal::Data(DataRefusal::NoString),
            "the data: there is no string",
        ),
        (
            TextRefusal::DataName(long),
            "a name in the data: the name has more than 255 octets",
        ),
    ];
    for (refusal, text) in rows {
        prints(&refusal, text);
    }
}
