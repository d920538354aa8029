// Made from crates/tests_above/src/record/rdata_refusal.rt by rust/erase.
//! Why data is not laid out as its type has it.

#[allow(unused_imports)]
use crate::rattle_std::prelude::*;
use crate::testing::{prints, same_of};
use control_wire::dns::Type;
use control_wire::record::rdata::RData;
use control_wire::record::rdata::refusal::DataRefusal;
use control_wire::record::record::Record;
use control_wire::record::refusal::PartRefusal;
use control_wire::record::types;

// The data of a zone: two names of one part, and five numbers.
const ZONE: [u8; 26] = *b"\x01a\0\x01b\0\0\0\0\x01\0\0\0\x02\0\0\0\x03\0\0\0\x04\0\0\0\x05";

// Ends the test unless these bytes are refused for this reason as data of a type of the internet.
fn check(type_: Type, octets: &[u8], refusal: Option<DataRefusal>) {
    same_of(octets, RData::refusal(type_, 1, octets), refusal);
    let record = Record {
        name: &[0],
        type_,
        class: 1,
        ttl: 0,
        data: octets,
    };
    same_of(octets, record.data_refusal(), refusal);
    let flagged = Record {
        class: record.class | 0x8000,
        ..record
    };
    same_of(octets, flagged.multicast_data_refusal(), refusal);
    same_of(octets, record.rdata().is_ok(), refusal.is_none());
}

#[test]
fn addresses_and_names() {
    let octets = [0; 16];
    check(Type::A, &octets[..4], None);
    check(Type::A, &octets[..3], Some(DataRefusal::Address(4)));
    check(Type::A, &octets[..5], Some(DataRefusal::Address(4)));
    check(Type::Aaaa, &octets, None);
    check(Type::Aaaa, &octets[..4], Some(DataRefusal::Address(16)));
    let cut = DataRefusal::Name(PartRefusal::Cut);
    let kind = DataRefusal::Name(PartRefusal::LabelType(0x80));
    for type_ in [Type::Cname, Type::Ns, types::PTR] {
        check(type_, b"\x01A\x03ISI\xc0\x1a", None);
        check(type_, b"\x01A\x03ISI\xc0", Some(cut));
        check(type_, b"", Some(cut));
        check(type_, b"\x01A\x80\0", Some(kind));
        check(type_, b"\x01A\0\0", Some(DataRefusal::BehindName));
    }
}

#[test]
fn names_behind_numbers() {
    let cut = DataRefusal::Name(PartRefusal::Cut);
    check(types::MX, b"\0\x0a\0", None);
    check(types::MX, b"\0", Some(DataRefusal::Numbers));
    check(types::MX, b"\0\x0a", Some(cut));
    check(types::MX, b"\0\x0a\0\0", Some(DataRefusal::BehindName));
    check(types::SRV, b"\0\x01\0\x02\0\x15\0", None);
    check(types::SRV, b"\0\x01\0\x02\0", Some(DataRefusal::Numbers));
    check(types::SRV, b"\0\x01\0\x02\0\x15", Some(cut));
}

#[test]
fn zones_and_strings() {
    check(types::SOA, &ZONE, None);
    check(types::SOA, &ZONE[..25], Some(DataRefusal::Times));
    check(types::SOA, &ZONE[..6], Some(DataRefusal::Times));
    let cut = PartRefusal::Cut;
    check(types::SOA, &ZONE[..5], Some(DataRefusal::SecondName(cut)));
    check(types::SOA, &ZONE[..2], Some(DataRefusal::Name(cut)));
    check(types::TXT, b"\x02hi\0", None);
    check(types::TXT, b"", Some(DataRefusal::NoString));
    check(types::TXT, b"\x02hi\x01", Some(DataRefusal::String));
    // Data of any other type is not refused.
    check(types::OPT, b"\x02", None);
}

#[test]
fn fields_in_front_of_a_name() {
    const ROWS: &[(Type, &[u8], DataRefusal)] = &[
        (types::AFSDB, b"", DataRefusal::Numbers),
        (types::RT, b"\0", DataRefusal::Numbers),
        (types::PX, b"\0", DataRefusal::Numbers),
        (types::KX, b"\x05", DataRefusal::Numbers),
        (types::NAPTR, b"\0\x64\0", DataRefusal::Numbers),
        (
            types::SIG,
            b"\0\x01\x05\x03\0\0\x0e\x10\x3b\x9a\xca\0\x3a\xde\x68\xb1\x53",
            DataRefusal::Numbers,
        ),
        (types::NAPTR, b"\0\x64\0\x0a", DataRefusal::String),
        (types::NAPTR, b"\0\x64\0\x0a\x01u\0", DataRefusal::String),
        (types::NAPTR, b"\0\x64\0\x0a\0\0\x02a", DataRefusal::String),
    ];
    for &(type_, octets, refusal) in ROWS {
        check(type_, octets, Some(refusal));
    }
}

#[test]
fn names_of_fields() {
    const ROWS: &[(Type, &[u8], DataRefusal)] = &[
        (types::MINFO, b"", DataRefusal::Name(PartRefusal::Cut)),
        (types::RP, b"\x01a", DataRefusal::Name(PartRefusal::Cut)),
        (types::AFSDB, b"\0\x01", DataRefusal::Name(PartRefusal::Cut)),
        (
            types::RT,
            b"\0\x02\xc0",
            DataRefusal::Name(PartRefusal::Cut),
        ),
        (types::PX, b"\0\x0a", DataRefusal::Name(PartRefusal::Cut)),
        (
            types::KX,
            b"\0\x03\x01a\x80\0",
            DataRefusal::Name(PartRefusal::LabelType(0x80)),
        ),
        (
            types::NAPTR,
            b"\0\x64\0\x0a\0\0\0",
            DataRefusal::Name(PartRefusal::Cut),
        ),
        (
            types::SIG,
            b"\0\x01\x05\x03\0\0\x0e\x10\x3b\x9a\xca\0\x3a\xde\x68\xb1\x53\xbb",
            DataRefusal::Name(PartRefusal::Cut),
        ),
        (types::NXT, b"\x02a", DataRefusal::Name(PartRefusal::Cut)),
        (
            types::NSEC,
            b"\xbf\0",
            DataRefusal::Name(PartRefusal::LabelType(0xbf)),
        ),
        (
            types::MINFO,
            b"\0",
            DataRefusal::SecondName(PartRefusal::Cut),
        ),
        (
            types::RP,
            b"\xc0\xff\x01a",
            DataRefusal::SecondName(PartRefusal::Cut),
        ),
        (
            types::PX,
            b"\0\x0a\0\x40",
            DataRefusal::SecondName(PartRefusal::LabelType(0x40)),
        ),
    ];
    for &(type_, octets, refusal) in ROWS {
        check(type_, octets, Some(refusal));
    }
}

#[test]
fn octets_behind_names() {
    const ROWS: &[(Type, &[u8], DataRefusal)] = &[
        (types::MINFO, b"\0\0\0", DataRefusal::BehindName),
        (types::RP, b"\x01a\0\0\x01", DataRefusal::BehindName),
        (types::AFSDB, b"\0\x01\0\0", DataRefusal::BehindName),
        (types::RT, b"\0\x02\xc0\xff\xc0", DataRefusal::BehindName),
        (types::PX, b"\0\x0a\0\0\0", DataRefusal::BehindName),
        (types::KX, b"\0\x03\0\x01", DataRefusal::BehindName),
        (
            types::NAPTR,
            b"\0\x64\0\x0a\0\0\0\0\x05",
            DataRefusal::BehindName,
        ),
        (types::NXT, b"\0\x80", DataRefusal::Types),
        (
            types::NXT,
            b"\xc0\xff\x40\0\0\0\0\0\0\0\0\0\0\0\0\0\0\0\0",
            DataRefusal::Types,
        ),
        (types::NSEC, b"\0\0", DataRefusal::Types),
        (types::NSEC, b"\0\0\0", DataRefusal::Types),
        (types::NSEC, b"\xc0\xff\0\x02\x40", DataRefusal::Types),
        (types::NSEC, b"\0\0\x01\x40\x01", DataRefusal::Types),
        (
            types::NSEC,
            b"\0\0\x21\0\0\0\0\0\0\0\0\0\0\0\0\0\0\0\0\0\0\0\0\0\0\0\0\0\0\0\0\0\0\0\0\0",
            DataRefusal::Types,
        ),
    ];
    for &(type_, octets, refusal) in ROWS {
        check(type_, octets, Some(refusal));
    }
}

// None of these is refused.
#[test]
fn fields_that_are_whole() {
    const ROWS: &[(Type, &[u8])] = &[
        (types::MINFO, b"\0\x01a\0"),
        (types::AFSDB, b"\0\x01\0"),
        (types::PX, b"\0\x0a\0\xc0\xff"),
        (types::NAPTR, b"\0\x64\0\x0a\0\0\0\0"),
        (
            types::SIG,
            b"\0\x01\x05\x03\0\0\x0e\x10\x3b\x9a\xca\0\x3a\xde\x68\xb1\x53\xbb\0",
        ),
        (types::NXT, b"\0"),
        (
            types::NXT,
            b"\0\x7f\xff\xff\xff\xff\xff\xff\xff\xff\xff\xff\xff\xff\xff\xff\xff",
        ),
        (types::NSEC, b"\0"),
        (
            types::NSEC,
            b"\0\xff\x20\0\0\0\0\0\0\0\0\0\0\0\0\0\0\0\0\0\0\0\0\0\0\0\0\0\0\0\0\0\0\0\0",
        ),
    ];
    for &(type_, octets) in ROWS {
        check(type_, octets, None);
    }
}

#[test]
fn texts_of_reasons() {
    const ROWS: [(DataRefusal, &str); 9] = [
        (
            DataRefusal::Address(16),
            "the address has other than 16 bytes",
        ),
        (
            DataRefusal::Numbers,
            "the numbers in front of the name are cut",
        ),
        (DataRefusal::Name(PartRefusal::Cut), "the name is cut"),
        (DataRefusal::BehindName, "bytes stand behind the name"),
        (
            DataRefusal::SecondName(PartRefusal::Cut),
            "behind the first name: the name is cut",
        ),
        (
            DataRefusal::Times,
            "the numbers behind the names have other than 20 bytes",
        ),
        (DataRefusal::NoString, "there is no string"),
        (DataRefusal::String, "a string is cut"),
        (DataRefusal::Types, "the type bit maps are malformed"),
    ];
    for (refusal, text) in &ROWS {
        prints(refusal, text);
    }
}
