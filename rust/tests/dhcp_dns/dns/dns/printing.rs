// Made from crates/tests_dhcp_dns/src/dns/dns/printing.rt by rust/erase.
//! What messages and their parts print.

use crate::testing::{prints, takes_writes};
use control_wire::dns::{Flags, Opcode, Packet, Question, Rcode, Record, RecordData, Repr, Type};
use control_wire::{Ipv4Address, Ipv6Address};

#[test]
fn types_print_their_names_by_iana() {
    const ROWS: &[(u16, &str)] = &[
        (1, "A"),
        (2, "NS"),
        (5, "CNAME"),
        (6, "SOA"),
        (12, "PTR"),
        (13, "HINFO"),
        (15, "MX"),
        (16, "TXT"),
        (28, "AAAA"),
        (33, "SRV"),
        (35, "NAPTR"),
        (39, "DNAME"),
        (41, "OPT"),
        (43, "DS"),
        (44, "SSHFP"),
        (46, "RRSIG"),
        (47, "NSEC"),
        (48, "DNSKEY"),
        (50, "NSEC3"),
        (52, "TLSA"),
        (64, "SVCB"),
        (65, "HTTPS"),
        (99, "SPF"),
        (251, "IXFR"),
        (252, "AXFR"),
        (255, "ANY"),
        (257, "CAA"),
        (0, "TYPE0"),
        (34, "TYPE34"),
        (65535, "TYPE65535"),
    ];
    for &(number, text) in ROWS {
        prints(&Type::from(number), text);
    }
}

#[test]
fn kinds_of_query_print_their_names_by_number() {
    const ROWS: &[(Opcode, &str)] = &[
        (Opcode::Query, "QUERY"),
        (Opcode::Status, "IQUERY"),
        (Opcode::Unknown(2), "STATUS"),
        (Opcode::Unknown(3), "OPCODE3"),
        (Opcode::Unknown(4), "NOTIFY"),
        (Opcode::Unknown(5), "UPDATE"),
        (Opcode::Unknown(6), "DSO"),
        (Opcode::Unknown(7), "OPCODE7"),
    ];
    for (opcode, text) in ROWS {
        prints(opcode, text);
    }
}

#[test]
fn outcomes_print_their_names_by_iana() {
    const ROWS: &[(u8, &str)] = &[
        (0, "NOERROR"),
        (1, "FORMERR"),
        (2, "SERVFAIL"),
        (3, "NXDOMAIN"),
        (4, "NOTIMP"),
        (5, "REFUSED"),
        (6, "YXDOMAIN"),
        (7, "YXRRSET"),
        (8, "NXRRSET"),
        (9, "NOTAUTH"),
        (10, "NOTZONE"),
        (15, "RCODE15"),
    ];
    for &(number, text) in ROWS {
        prints(&Rcode::from(number), text);
    }
}

#[test]
fn sets_of_flags_print_their_short_names() {
    const ROWS: &[(u16, &str)] = &[
        (0x0000, "-"),
        (0x8000, "qr"),
        (0x0120, "rd,ad"),
        (0x8580, "qr,aa,rd,ra"),
        (0x87b0, "qr,aa,tc,rd,ra,ad,cd"),
        // The bit that has no name.
        (0x0040, "-"),
    ];
    for &(bits, text) in ROWS {
        prints(&Flags::from_bits_retain(bits), text);
    }
}

const QUERY: Repr<'static> = Repr {
    transaction_id: 0x1234,
    opcode: Opcode::Query,
    flags: Flags::RECURSION_DESIRED,
    question: Question {
        name: b"\x06google\x03com\0",
        type_: Type::Aaaa,
    },
};

#[test]
fn questions_and_queries_print_their_fields() {
    let text = "DNS question name_len=12 type=AAAA";
    prints(&QUERY.question, text);
    let text = "DNS query id=4660 opcode=QUERY flags=rd name_len=12 type=AAAA";
    prints(&QUERY, text);
}

#[test]
fn records_print_their_fields() {
    // 2001::1.
    let octets = [0x20, 0x01, 0, 0, 0, 0, 0, 0, 0, 0, 0, 0, 0, 0, 0, 1];
    let rows = [
        (
            RecordData::A(Ipv4Address::new(172, 217, 168, 174)),
            "DNS record name_len=2 ttl=202 A addr=172.217.168.174",
        ),
        (
            RecordData::Aaaa(Ipv6Address::from_octets(octets)),
            "DNS record name_len=2 ttl=202 AAAA addr=2001::1",
        ),
        (
            RecordData::Cname(&[0xc0, 0x10]),
            "DNS record name_len=2 ttl=202 CNAME name_len=2",
        ),
        (
            RecordData::Other(Type::Unknown(15), &[0, 10, 0]),
            "DNS record name_len=2 ttl=202 MX len=3",
        ),
    ];
    for (data, text) in rows {
        let record = Record {
            name: &[0xc0, 0x0c],
            ttl: 202,
            data,
        };
        prints(&record, text);
    }
}

#[test]
fn views_print_their_headers() {
    const ROWS: &[(&[u8], &str)] = &[
        (b"", "DNS (wire::Error)"),
        (b"\x12\x34\x01\0\0\x01\0\0\0\0\0", "DNS (wire::Error)"),
        (
            b"\x12\x34\x01\0\0\x01\0\0\0\0\0\0",
            "DNS id=4660 opcode=QUERY flags=rd rcode=NOERROR \
                questions=1 answers=0 authorities=0 additionals=0",
        ),
        // A response that the name does not exist, and the front of its question.
        (
            b"\xab\xcd\x85\xb3\0\x01\0\x02\0\x03\0\x04\x03com",
            "DNS id=43981 opcode=QUERY flags=qr,aa,rd,ra,ad,cd rcode=NXDOMAIN \
                questions=1 answers=2 authorities=3 additionals=4",
        ),
        // An update, and the bit that has no name.
        (
            b"\0\0\x28\x40\0\0\xff\xff\0\0\x01\0",
            "DNS id=0 opcode=UPDATE flags=- rcode=NOERROR \
                questions=0 answers=65535 authorities=0 additionals=256",
        ),
        // Each bit of the word of flags.
        (
            b"\xff\xff\xff\xff\0\0\0\0\xff\xff\0\0",
            "DNS id=65535 opcode=OPCODE15 flags=qr,aa,tc,rd,ra,ad,cd rcode=RCODE15 \
                questions=0 answers=0 authorities=65535 additionals=0",
        ),
    ];
    for &(octets, text) in ROWS {
        prints(&Packet::new_unchecked(octets), text);
    }
}

#[test]
fn printing_fails_only_with_its_writer() {
    takes_writes(&QUERY, 12);
    takes_writes(&QUERY.question, 4);
    let header: &[u8] = b"\x12\x34\x01\0\0\x01\0\0\0\0\0\0";
    takes_writes(&Packet::new_unchecked(header), 19);
    takes_writes(&Packet::new_unchecked(&header[..11]), 3);
    takes_writes(&Type::Unknown(34), 2);
    takes_writes(&Flags::empty(), 1);
    takes_writes(&(Flags::RESPONSE | Flags::TRUNCATED), 5);
}
