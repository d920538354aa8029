// Made from crates/tests_above/src/record/rdata.rt by rust/erase.
//! The data of records by their type.

use crate::testing::{prints, same_of};
use control_wire::dns::Type;
use control_wire::record::rdata::fields::{Fields, Front, Rest, Signed};
use control_wire::record::rdata::{Authority, RData};
use control_wire::record::types;
use control_wire::{Error, Ipv4Address, Ipv6Address, Result};

// The types that have no name in the tables (RFC 1035 section 3.2.2, RFC 2782).
const PTR: Type = Type::Unknown(12);

const MX: Type = Type::Unknown(15);

const TXT: Type = Type::Unknown(16);

const SRV: Type = Type::Unknown(33);

// Ends the test unless these bytes are this data of a type of the internet.
fn is(type_: Type, octets: &[u8], data: Result<RData<'_>>) {
    same_of(octets, RData::parse(type_, 1, octets), data);
}

#[test]
fn addresses() {
    let address = Ipv4Address::new(10, 1, 0, 52);
    is(Type::A, &[10, 1, 0, 52], Ok(RData::A(address)));
    is(Type::A, &[10, 1, 0], Err(Error));
    let loopback = [0, 0, 0, 0, 0, 0, 0, 0, 0, 0, 0, 0, 0, 0, 0, 1];
    let address = Ipv6Address::from_octets(loopback);
    is(Type::Aaaa, &loopback, Ok(RData::Aaaa(address)));
    is(Type::Aaaa, &loopback[1..], Err(Error));
    same_of(
        "another class",
        RData::parse(Type::A, 3, &[10]),
        Ok(RData::Other(&[10])),
    );
}

#[test]
fn names() {
    for type_ in [Type::Cname, Type::Ns, PTR] {
        is(
            type_,
            b"\x01A\x03ISI\xc0\x1a",
            Ok(RData::Name(b"\x01A\x03ISI\xc0\x1a")),
        );
        is(type_, b"\0", Ok(RData::Name(b"\0")));
        is(type_, b"\x01A\0\0", Err(Error));
        is(type_, b"\x01A", Err(Error));
        is(type_, b"", Err(Error));
    }
}

// Those of RFC 1035 section 5.3 and RFC 2782: VENERA for mail, and port 21 of a server.
#[test]
fn hosts_of_services() {
    let mail = RData::Mx {
        preference: 10,
        exchange: b"\x06VENERA\xc0\x0c",
    };
    is(MX, b"\x00\x0a\x06VENERA\xc0\x0c", Ok(mail));
    is(MX, b"\x00\x0a", Err(Error));
    is(MX, b"\x00", Err(Error));
    let service = RData::Srv {
        priority: 1,
        weight: 3,
        port: 21,
        target: b"\x06server\0",
    };
    is(SRV, b"\x00\x01\x00\x03\x00\x15\x06server\0", Ok(service));
    is(SRV, b"\x00\x01\x00\x03\x00\x15\x06server\0\0", Err(Error));
    is(SRV, b"\x00\x01\x00\x03\x00", Err(Error));
}

// The zone of RFC 1035 section 5.3: serial 20, refreshed after 7200 s, tried again after 600 s, good for 3600000 s,
// and 60 s at the least.
#[test]
fn zones() {
    let octets =
        b"\x06VENERA\xc0\x0c\x0eAction.domains\xc0\x0c\0\0\0\x14\0\0\x1c\x20\0\0\x02\x58\0\x36\xee\x80\0\0\0\x3c";
    let authority = Authority {
        primary: b"\x06VENERA\xc0\x0c",
        mailbox: b"\x0eAction.domains\xc0\x0c",
        serial: 20,
        refresh: 7200,
        retry: 600,
        expire: 3600000,
        minimum: 60,
    };
    is(Type::Soa, octets, Ok(RData::Soa(authority)));
    is(Type::Soa, &octets[..octets.len() - 1], Err(Error));
    is(Type::Soa, &octets[..9], Err(Error));
}

#[test]
fn strings() {
    is(TXT, b"\x0bv=spf1 -all", Ok(RData::Txt(b"\x0bv=spf1 -all")));
    is(TXT, b"\x01a\x00\x02bc", Ok(RData::Txt(b"\x01a\x00\x02bc")));
    is(TXT, b"\x01a\x02b", Err(Error));
    is(TXT, b"", Err(Error));
    let other = Type::Unknown(41);
    is(other, b"\x01", Ok(RData::Other(b"\x01")));
    is(other, b"", Ok(RData::Other(b"")));
}

// Names behind and in front of fields: NAPTR as in RFC 3403 section 6.1, NXT as in RFC 2535 section 5.4, and NSEC as
// hosts of multicast DNS have it for A, TXT, AAAA and SRV (RFC 6762 section 6.1), and one with CAA besides.
#[test]
fn fields_and_names() {
    let rows: [(Type, &[u8], Fields<'static>); 13] = [
        (
            types::MINFO,
            b"\x05admin\xc0\x0c\x06errors\xc0\x14",
            Fields {
                front: Front::Nothing,
                first: b"\x05admin\xc0\x0c",
                second: Some(b"\x06errors\xc0\x14"),
                rest: Rest::Nothing,
            },
        ),
        (
            types::RP,
            b"\x04root\xc0\x0c\0",
            Fields {
                front: Front::Nothing,
                first: b"\x04root\xc0\x0c",
                second: Some(b"\0"),
                rest: Rest::Nothing,
            },
        ),
        (
            types::AFSDB,
            b"\0\x01\x03afs\0",
            Fields {
                front: Front::Number(1),
                first: b"\x03afs\0",
                second: None,
                rest: Rest::Nothing,
            },
        ),
        (
            types::RT,
            b"\0\x02\x05relay\xc0\x0c",
            Fields {
                front: Front::Number(2),
                first: b"\x05relay\xc0\x0c",
                second: None,
                rest: Rest::Nothing,
            },
        ),
        (
            types::PX,
            b"\0\x0a\x03net\xc0\x0c\x04x400\xc0\x10",
            Fields {
                front: Front::Number(10),
                first: b"\x03net\xc0\x0c",
                second: Some(b"\x04x400\xc0\x10"),
                rest: Rest::Nothing,
            },
        ),
        (
            types::KX,
            b"\xff\xfe\xc0\x0c",
            Fields {
                front: Front::Number(65534),
                first: b"\xc0\x0c",
                second: None,
                rest: Rest::Nothing,
            },
        ),
        (
            types::NAPTR,
            b"\0\x64\0\x32\x01a\x0dz3950+N2L+N2C\0\x09cidserver\xc0\x0c",
            Fields {
                front: Front::Rule {
                    order: 100,
                    preference: 50,
                    strings: b"\x01a\x0dz3950+N2L+N2C\0",
                },
                first: b"\x09cidserver\xc0\x0c",
                second: None,
                rest: Rest::Nothing,
            },
        ),
        (
            types::SIG,
            b"\0\x01\x05\x03\0\0\x0e\x10\x3b\x9a\xca\0\x3a\xde\x68\xb1\x53\xbb\x01k\xc0\x0cfooba",
            Fields {
                front: Front::Signed(Signed {
                    covered: Type::A,
                    algorithm: 5,
                    labels: 3,
                    original_ttl: 3600,
                    expiration: 1000000000,
                    inception: 987654321,
                    key_tag: 21435,
                }),
                first: b"\x01k\xc0\x0c",
                second: None,
                rest: Rest::Signature(b"fooba"),
            },
        ),
        (
            types::NXT,
            b"\x06medium\xc0\x0c\x40\x01\0\x82",
            Fields {
                front: Front::Nothing,
                first: b"\x06medium\xc0\x0c",
                second: None,
                rest: Rest::Bits(b"\x40\x01\0\x82"),
            },
        ),
        (
            types::NSEC,
            b"\xc0\x0c\0\x05\x40\0\x80\x08\x40",
            Fields {
                front: Front::Nothing,
                first: b"\xc0\x0c",
                second: None,
                rest: Rest::Types(b"\0\x05\x40\0\x80\x08\x40"),
            },
        ),
        (
            types::NSEC,
            b"\x01b\0\0\x01\x40\x01\x01\x40",
            Fields {
                front: Front::Nothing,
                first: b"\x01b\0",
                second: None,
                rest: Rest::Types(b"\0\x01\x40\x01\x01\x40"),
            },
        ),
        (
            types::NSEC,
            b"\0",
            Fields {
                front: Front::Nothing,
                first: b"\0",
                second: None,
                rest: Rest::Types(b""),
            },
        ),
        (
            types::NXT,
            b"\0",
            Fields {
                front: Front::Nothing,
                first: b"\0",
                second: None,
                rest: Rest::Bits(b""),
            },
        ),
    ];
    for (type_, octets, fields) in rows {
        is(type_, octets, Ok(RData::Fields(fields)));
    }
}

#[test]
fn texts_of_data() {
    let authority = Authority {
        primary: b"\x06VENERA\xc0\x0c",
        mailbox: b"\x0eAction.domains\xc0\x0c",
        serial: 20,
        refresh: 7200,
        retry: 600,
        expire: 3600000,
        minimum: 60,
    };
    let rows = [
        (RData::A(Ipv4Address::new(10, 1, 0, 52)), "10.1.0.52"),
        (
            RData::Aaaa(Ipv6Address::from_octets([
                0x20, 1, 0xd, 0xb8, 0, 0, 0, 0, 0, 0, 0, 0, 0, 0, 0, 1,
            ])),
            "2001:db8::1",
        ),
        (RData::Name(b"\x01A\0"), "name len=3"),
        (
            RData::Mx {
                preference: 10,
                exchange: b"\x06VENERA\xc0\x0c",
            },
            "MX preference=10 exchange_len=9",
        ),
        (
            RData::Srv {
                priority: 1,
                weight: 3,
                port: 21,
                target: b"\x06server\0",
            },
            "SRV priority=1 weight=3 port=21 target_len=8",
        ),
        (
            RData::Soa(authority),
            "SOA primary_len=9 mailbox_len=17 serial=20 refresh=7200 retry=600 expire=3600000 minimum=60",
        ),
        (RData::Txt(b"\x01a\x00"), "TXT len=3"),
        (RData::Other(b""), "data len=0"),
    ];
    for (data, text) in &rows {
        prints(data, text);
    }
}

#[test]
fn texts_of_fields() {
    let rows: [(Type, &[u8], &str); 7] = [
        (types::RP, b"\x04root\xc0\x0c\0", "first_len=7 second_len=1"),
        (types::KX, b"\xff\xfe\xc0\x0c", "65534 name_len=2"),
        (
            types::PX,
            b"\0\x0a\x01n\xc0\x0c\x04x400\xc0\x10",
            "10 first_len=4 second_len=7",
        ),
        (
            types::NAPTR,
            b"\0\x64\0\x32\x01a\0\x02b\"\xc0\x0c",
            "100 50 \"a\" \"\" \"b\\\"\" name_len=2",
        ),
        (
            types::SIG,
            b"\0\x01\x05\x03\0\0\x0e\x10\x3b\x9a\xca\0\x3a\xde\x68\xb1\x53\xbb\0foob",
            "A 5 3 3600 1000000000 987654321 21435 name_len=1 Zm9vYg==",
        ),
        (types::NXT, b"\0\x40\x01\0\x82", "name_len=1 A MX SIG NXT"),
        (types::NSEC, b"\0\0\x01\x40\x01\x01\x40", "name_len=1 A CAA"),
    ];
    for (type_, octets, text) in rows {
        match RData::parse(type_, 1, octets) {
            Ok(data) => prints(&data, text),
            Err(refusal) => same_of(octets, Some(refusal), None),
        }
    }
}
