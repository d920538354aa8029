// Made from crates/tests_dhcp_dns/src/dns/dns.rt by rust/erase.
use crate::testing::{fail, same, same_of};
use control_wire::dns::{
    Flags, MULTICAST_PORT, Opcode, Packet, Question, Rcode, Record, RecordData, SERVER_PORT, Type,
};
use control_wire::inside::octets::{NamePart, follow, read_front};
use control_wire::{Ipv4Address, Ipv6Address};

pub(crate) mod damaged;
mod printing;
mod refusals;
mod written;

#[test]
fn numbers_of_ports() {
    same([SERVER_PORT, MULTICAST_PORT], [53, 5353]);
}

#[test]
fn numbers_of_kinds_of_query() {
    const OPCODES: &[(u8, Opcode)] = &[
        (0, Opcode::Query),
        (1, Opcode::Status),
        (2, Opcode::Unknown(2)),
    ];
    for &(number, opcode) in OPCODES {
        same(Opcode::from(number), opcode);
        same(u8::from(opcode), number);
    }
}

#[test]
fn numbers_of_outcomes() {
    const OUTCOMES: &[(u8, Rcode)] = &[
        (0, Rcode::NoError),
        (1, Rcode::FormErr),
        (2, Rcode::ServFail),
        (3, Rcode::NXDomain),
        (4, Rcode::NotImp),
        (5, Rcode::Refused),
        (6, Rcode::YXDomain),
        (7, Rcode::YXRRSet),
        (8, Rcode::NXRRSet),
        (9, Rcode::NotAuth),
        (10, Rcode::NotZone),
        (11, Rcode::Unknown(11)),
    ];
    for &(number, rcode) in OUTCOMES {
        same(Rcode::from(number), rcode);
        same(u8::from(rcode), number);
    }
    same(Rcode::NXDomain < Rcode::NotImp, true);
}

#[test]
fn numbers_of_types_of_record() {
    const TYPES: &[(u16, Type)] = &[
        (1u16, Type::A),
        (2, Type::Ns),
        (5, Type::Cname),
        (6, Type::Soa),
        (28, Type::Aaaa),
        (255, Type::Unknown(255)),
    ];
    for &(number, kind) in TYPES {
        same(Type::from(number), kind);
        same(u16::from(kind), number);
    }
    same(Type::Aaaa < Type::Unknown(0), true);
}

#[test]
fn bits_of_flags() {
    for (flags, bits) in [
        (Flags::RESPONSE, 0x8000u16),
        (Flags::AUTHORITATIVE, 0x0400),
        (Flags::TRUNCATED, 0x0200),
        (Flags::RECURSION_DESIRED, 0x0100),
        (Flags::RECURSION_AVAILABLE, 0x0080),
        (Flags::AUTHENTIC_DATA, 0x0020),
        (Flags::CHECK_DISABLED, 0x0010),
        (Flags::all(), 0x87b0),
        (Flags::empty(), 0),
    ] {
        same(flags.bits(), bits);
    }
}

#[test]
fn flags_of_bits_with_and_without_a_name() {
    same(Flags::from_bits(0x0040), None);
    same(Flags::from_bits_truncate(0xffff), Flags::all());
    same(Flags::from_bits_retain(0x0040).bits(), 0x0040);
}

#[test]
fn flags_that_are_joined_and_taken_away() {
    let both = Flags::RESPONSE | Flags::TRUNCATED;
    same([both.bits(), (!both).bits()], [0x8200, 0x05b0]);
    same(both & Flags::RESPONSE, Flags::RESPONSE);
    same(both - Flags::RESPONSE, Flags::TRUNCATED);
    same(both ^ Flags::RESPONSE, Flags::TRUNCATED);
}

// A query for a name's address.
const QUERY: [u8; 28] = [
    0x51, 0x84, 0x01, 0x20, 0x00, 0x01, 0x00, 0x00, 0x00, 0x00, 0x00, 0x00, 0x06, 0x67, 0x6f, 0x6f,
    0x67, 0x6c, 0x65, 0x03, 0x63, 0x6f, 0x6d, 0x00, 0x00, 0x01, 0x00, 0x01,
];

// Reads a header of these flags, this outcome and these numbers of questions and of each kind of record.
fn check_header(octets: &[u8], transaction_id: u16, flags: u16, outcome: Rcode, counts: [u16; 4]) {
    let Ok(packet) = Packet::new_checked(octets) else {
        fail("too short");
        return;
    };
    same(packet.transaction_id(), transaction_id);
    same(packet.flags().bits(), flags);
    same(packet.opcode(), Opcode::Query);
    same(packet.rcode(), outcome);
    let read = [
        packet.question_count(),
        packet.answer_record_count(),
        packet.authority_record_count(),
        packet.additional_record_count(),
    ];
    same(read, counts);
}

#[test]
fn headers_of_messages() {
    let response = [
        0x51, 0x84, 0x81, 0x80, 0x00, 0x01, 0x00, 0x01, 0x00, 0x00, 0x00, 0x00,
    ];
    let none = [
        0x63, 0xc4, 0x81, 0x83, 0x00, 0x01, 0x00, 0x00, 0x00, 0x01, 0x00, 0x00,
    ];
    check_header(&QUERY, 0x5184, 0x0120, Rcode::NoError, [1, 0, 0, 0]);
    check_header(&response, 0x5184, 0x8180, Rcode::NoError, [1, 1, 0, 0]);
    check_header(&none, 0x63c4, 0x8180, Rcode::NXDomain, [1, 0, 1, 0]);
    same(Packet::new_checked(&none[..11]).is_err(), true);
}

// Whether a question is read from the octets.
fn is_question(octets: &[u8]) -> bool {
    Question::parse(octets).is_ok()
}

// Reads a question, and this rest behind it.
fn check_question(octets: &[u8], question: Question<'_>, rest: &[u8]) {
    same(Question::parse(octets), Ok((rest, question)));
}

#[test]
fn the_question_behind_a_header() {
    let packet = Packet::new_unchecked(QUERY.as_slice());
    let question = Question {
        name: b"\x06google\x03com\x00",
        type_: Type::A,
    };
    check_question(packet.payload(), question, &[]);
}

#[test]
fn counts_and_a_payload_that_are_written() {
    let mut octets = [0xff; 14];
    let mut packet = Packet::new_unchecked(octets.as_mut_slice());
    packet.set_question_count(0x0102);
    packet.set_answer_record_count(0x0304);
    packet.set_authority_record_count(0x0506);
    packet.set_additional_record_count(0x0708);
    packet.payload_mut()[1] = 0x0a;
    let written = [
        0xff, 0xff, 0xff, 0xff, 0x01, 0x02, 0x03, 0x04, 0x05, 0x06, 0x07, 0x08, 0xff, 0x0a,
    ];
    same(octets.as_slice(), written.as_slice());
}

#[test]
fn a_number_and_an_opcode_that_are_written() {
    let mut octets = [0xff; 12];
    let mut packet = Packet::new_unchecked(octets.as_mut_slice());
    packet.set_opcode(Opcode::Status);
    same(packet.opcode(), Opcode::Status);
    packet.set_transaction_id(0x1234);
    let written = [
        0x12, 0x34, 0x8f, 0xff, 0xff, 0xff, 0xff, 0xff, 0xff, 0xff, 0xff, 0xff,
    ];
    same(octets.as_slice(), written.as_slice());
}

#[test]
fn an_opcode_that_leaves_the_flags() {
    let mut octets = [0xff; 12];
    let mut packet = Packet::new_unchecked(octets.as_mut_slice());
    packet.set_opcode(Opcode::Query);
    same(&octets[2..4], [0x87, 0xff].as_slice());
}

#[test]
fn flags_that_leave_the_other_bits() {
    let mut octets = [0xff; 12];
    octets[2] = 0x87;
    let mut packet = Packet::new_unchecked(octets.as_mut_slice());
    packet.set_flags(Flags::TRUNCATED);
    same(&octets[2..4], [0x02, 0x4f].as_slice());
}

#[test]
fn questions_and_what_stands_behind_them() {
    let whole = [0x01, 0x61, 0x00, 0x00, 0x01, 0x00, 0x01, 0xff];
    let question = Question {
        name: &[0x01, 0x61, 0x00],
        type_: Type::A,
    };
    check_question(&whole, question, &[0xff]);
    for len in 0..7usize {
        same_of(len, is_question(&whole[..len]), false);
    }
}

#[test]
fn a_question_whose_name_is_a_pointer() {
    let octets = [0xc0, 0x0c, 0x00, 0x01, 0x00, 0x01, 0xff];
    let question = Question {
        name: &[0xc0, 0x0c],
        type_: Type::A,
    };
    check_question(&octets, question, &[0xff]);
}

#[test]
fn questions_of_another_class_and_torn_ones() {
    const REFUSED: &[&[u8]] = &[
        &[0x01, 0x61, 0x00, 0x00, 0x01, 0x00, 0xff],
        &[0x40],
        &[0x80, 0x00, 0x00, 0x01, 0x00, 0x01],
        &[0x03, 0x61],
        &[0xc0],
    ];
    for &refused in REFUSED {
        same_of(refused, is_question(refused), false);
    }
}

// Whether a record is read from the octets.
fn is_record(octets: &[u8]) -> bool {
    Record::parse(octets).is_ok()
}

// Reads a record that fills the octets.
fn check_record(octets: &[u8], name: &[u8], ttl: u32, data: RecordData<'_>) {
    let read = Record::parse(octets);
    same(read, Ok(([].as_slice(), Record { name, ttl, data })));
}

#[test]
fn records_of_three_types() {
    let address = [
        0xc0, 0x0c, 0x00, 0x01, 0x00, 0x01, 0x00, 0x00, 0x00, 0xca, 0x00, 0x04, 0xac, 0xd9, 0xa8,
        0xae,
    ];
    let host = RecordData::A(Ipv4Address::new(172, 217, 168, 174));
    check_record(&address, &[0xc0, 0x0c], 202, host);
    let alias = [
        0xc0, 0x0c, 0x00, 0x05, 0x00, 0x01, 0x00, 0x00, 0x05, 0xf3, 0x00, 0x02, 0xc0, 0x10,
    ];
    let other_name = RecordData::Cname(&[0xc0, 0x10]);
    check_record(&alias, &[0xc0, 0x0c], 1523, other_name);
    let authority = [
        0xc0, 0x20, 0x00, 0x06, 0x00, 0x01, 0x00, 0x00, 0x03, 0x83, 0x00, 0x01, 0xaa,
    ];
    let zone = RecordData::Other(Type::Soa, &[0xaa]);
    check_record(&authority, &[0xc0, 0x20], 899, zone);
}

#[test]
fn records_that_are_cut_or_of_another_length() {
    let mut address = [
        0xc0, 0x0c, 0x00, 0x01, 0x00, 0x01, 0x00, 0x00, 0x00, 0xca, 0x00, 0x04, 0xac, 0xd9, 0xa8,
        0xae,
    ];
    for len in 0..16usize {
        same_of(len, is_record(&address[..len]), false);
    }
    address[11] = 0x03;
    same(is_record(&address), false);
}

// Reads the address of these octets.
fn check_address(octets: &[u8; 16]) {
    let address = RecordData::Aaaa(Ipv6Address::from_octets(*octets));
    same(RecordData::parse(Type::Aaaa, octets), Ok(address));
}

#[test]
fn an_address_of_16_bytes() {
    // 2001::1.
    let octets = [0x20, 0x01, 0, 0, 0, 0, 0, 0, 0, 0, 0, 0, 0, 0, 0, 1];
    check_address(&octets);
    let cut = RecordData::parse(Type::Aaaa, &octets[..15]);
    same(cut.is_err(), true);
}

#[test]
fn records_that_differ() {
    let host = RecordData::A(Ipv4Address::new(172, 217, 168, 174));
    let record = Record {
        name: &[0xc0, 0x0c],
        ttl: 202,
        data: host,
    };
    let others = [
        Record {
            name: &[0xc0, 0x0d],
            ..record
        },
        Record { ttl: 203, ..record },
        Record {
            data: RecordData::A(Ipv4Address::new(172, 217, 168, 175)),
            ..record
        },
        Record {
            data: RecordData::Cname(&[172, 217, 168, 174]),
            ..record
        },
        Record {
            data: RecordData::Other(Type::A, &[172, 217, 168, 174]),
            ..record
        },
    ];
    for other in &others {
        same_of(other, *other == record, false);
    }
}

#[test]
fn views_are_equal_where_their_octets_are() {
    let copy = QUERY;
    let view = Packet::new_unchecked(QUERY.as_slice());
    same(view == Packet::new_unchecked(copy.as_slice()), true);
    same(view == Packet::new_unchecked(&copy[..27]), false);
    same(view == Packet::new_unchecked(&copy[1..]), false);
    same(view.into_inner(), QUERY.as_slice());
}

#[test]
fn fronts_of_parts_of_names() {
    const ROWS: &[(&[u8], NamePart<'_>)] = &[
        (b"\x03www\x03com\0", NamePart::Label(b"www", b"\x03com\0")),
        (b"\x01a", NamePart::Label(b"a", b"")),
        (b"\0\x01a", NamePart::End),
        (b"\xc0\x14\0", NamePart::Pointer(20)),
        (b"\xff\xff", NamePart::Pointer(16383)),
        (b"", NamePart::Torn),
        (b"\x02a", NamePart::Torn),
        (b"\x40", NamePart::Torn),
        (b"\xbf\0", NamePart::Torn),
        (b"\xc0", NamePart::Torn),
    ];
    for &(text, front) in ROWS {
        same_of(text, read_front(text), front);
    }
}

#[test]
fn pointers_lead_to_open_bytes_alone() {
    // Where a pointer into these bytes leads, and what is there and in front of it.
    const OPEN: &[u8] = b"abc";
    const ROWS: &[(usize, Option<(&[u8], &[u8])>)] = &[
        (0, Some((b"abc", b""))),
        (2, Some((b"c", b"ab"))),
        (3, None),
    ];
    for &(target, parts) in ROWS {
        same_of(target, follow(OPEN, target), parts);
    }
}
