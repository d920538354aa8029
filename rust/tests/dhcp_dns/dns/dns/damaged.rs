// Made from crates/tests_dhcp_dns/src/dns/dns/damaged.rt by rust/erase.
//! Damaged and cut headers, questions and records, against a second reader by RFC 1035 section 4.1 and RFC 3596 section
//! 2.2 alone.

use super::{is_question, is_record};
use crate::testing::{agree, fail, holds_of, same_of};
use control_wire::dns::{Flags, Opcode, Packet, Question, Rcode, Record, RecordData, Type};
use control_wire::{Ipv4Address, Ipv6Address};

// What follows the part of a name at the front of the octets: labels after their lengths, and byte 0 or a
// pointer of two bytes.
fn behind_name(octets: &[u8]) -> Option<&[u8]> {
    let mut rest = octets;
    for _ in 0..octets.len() {
        let (first, after) = rest.split_first()?;
        match *first {
            0 => return Some(after),
            1..=63 => rest = after.get(*first as usize..)?,
            0xc0..=0xff => return after.get(1..),
            _ => return None,
        }
    }
    None
}

// The name at the front of the octets, and what follows it.
fn read_name(octets: &[u8]) -> Option<(&[u8], &[u8])> {
    let behind = behind_name(octets)?;
    let len = octets.len().checked_sub(behind.len())?;
    octets.split_at_checked(len)
}

// What follows the question at the front of the octets, and the question.
fn read_question(octets: &[u8]) -> Option<(&[u8], Question<'_>)> {
    let (name, behind) = read_name(octets)?;
    let [t0, t1, 0, 1, rest @ ..] = behind else {
        return None;
    };
    let type_ = Type::from(u16::from_be_bytes([*t0, *t1]));
    Some((rest, Question { name, type_ }))
}

// The address of four bytes.
fn read_ipv4(data: &[u8]) -> Option<RecordData<'_>> {
    let [a, b, c, d] = data else {
        return None;
    };
    Some(RecordData::A(Ipv4Address::new(*a, *b, *c, *d)))
}

// The address of 16 bytes.
fn read_ipv6(data: &[u8]) -> Option<RecordData<'_>> {
    let Ok(octets) = data.try_into() else {
        return None;
    };
    Some(RecordData::Aaaa(Ipv6Address::from_octets(octets)))
}

// The data of a record of this type.
fn read_data(kind: u16, data: &[u8]) -> Option<RecordData<'_>> {
    match kind {
        1 => read_ipv4(data),
        28 => read_ipv6(data),
        5 => Some(RecordData::Cname(data)),
        _ => Some(RecordData::Other(Type::from(kind), data)),
    }
}

// The numbers behind the name of a record, which are its type, its time to live and its length, and what follows
// them.
fn read_numbers(octets: &[u8]) -> Option<(u16, u32, usize, &[u8])> {
    let [k0, k1, 0, 1, t0, t1, t2, t3, n0, n1, behind @ ..] = octets else {
        return None;
    };
    let kind = u16::from_be_bytes([*k0, *k1]);
    let ttl = u32::from_be_bytes([*t0, *t1, *t2, *t3]);
    Some((kind, ttl, u16::from_be_bytes([*n0, *n1]) as usize, behind))
}

// What follows the record at the front of the octets, and the record.
fn read_record(octets: &[u8]) -> Option<(&[u8], Record<'_>)> {
    let (name, behind) = read_name(octets)?;
    let (kind, ttl, len, behind) = read_numbers(behind)?;
    let data = read_data(kind, behind.get(..len)?)?;
    Some((behind.get(len..)?, Record { name, ttl, data }))
}

// Compares the reader of questions with the plain one over these octets, and with what is told of a refusal.
fn compare_question(octets: &[u8]) {
    agree(octets, &Question::parse(octets), &read_question(octets));
    same_of(
        octets,
        Question::refusal(octets).is_none(),
        is_question(octets),
    );
}

// Compares the reader of records with the plain one over these octets, and with what is told of a refusal.
fn compare_record(octets: &[u8]) {
    agree(octets, &Record::parse(octets), &read_record(octets));
    same_of(octets, Record::refusal(octets).is_none(), is_record(octets));
}

// Compares a number of a header with the two octets from this place on.
fn compare_number(octets: &[u8], place: usize, number: u16) {
    let Some(rest) = octets.get(place..) else {
        fail("too short");
        return;
    };
    let is_there = rest.starts_with(&number.to_be_bytes());
    holds_of((place, octets), is_there);
}

// Compares the numbers of a header, and what is behind it, with the octets at their places.
fn compare_numbers(octets: &[u8]) {
    let Ok(packet) = Packet::new_checked(octets) else {
        fail("too short");
        return;
    };
    compare_number(octets, 0, packet.transaction_id());
    compare_number(octets, 4, packet.question_count());
    compare_number(octets, 6, packet.answer_record_count());
    compare_number(octets, 8, packet.authority_record_count());
    compare_number(octets, 10, packet.additional_record_count());
    same_of(octets, Some(packet.payload()), octets.get(12..));
}

// Compares the flags of a header with the bits of these two octets.
fn compare_flags(octets: &[u8], first: u8, second: u8) {
    let Ok(packet) = Packet::new_checked(octets) else {
        fail("too short");
        return;
    };
    let flags = u16::from_be_bytes([first, second]) & 0x87b0;
    same_of(octets, packet.flags().bits(), flags);
}

// Compares the operation and the outcome with the bits of these two octets.
fn compare_codes(octets: &[u8], first: u8, second: u8) {
    let Ok(packet) = Packet::new_checked(octets) else {
        fail("too short");
        return;
    };
    same_of(octets, packet.opcode(), Opcode::from(first / 8 % 16));
    same_of(octets, packet.rcode(), Rcode::from(second % 16));
}

// Compares the fields of a header with the octets at their places.
fn compare_header(octets: &[u8]) {
    let is_header = 12 <= octets.len();
    same_of(octets, Packet::new_checked(octets).is_ok(), is_header);
    if is_header {
        compare_numbers(octets);
        compare_flags(octets, octets[2], octets[3]);
        compare_codes(octets, octets[2], octets[3]);
    }
}

// Compares all of it over these octets.
fn compare(octets: &[u8]) {
    compare_header(octets);
    compare_question(octets);
    compare_record(octets);
}

// A copy of the octets whose byte at this place is the value, and zeros behind it.
pub(crate) fn damaged(octets: &[u8], at: usize, value: u8) -> [u8; 80] {
    let mut copy = [0; 80];
    copy[..octets.len()].copy_from_slice(octets);
    copy[at] = value;
    copy
}

// Compares them over each shorter part of the octets, and over each copy of them in which one byte is another.
fn compare_damaged(octets: &[u8]) {
    holds_of(octets, octets.len() <= 80);
    for len in 0..=octets.len() {
        compare(&octets[..len]);
    }
    for at in 0..octets.len() {
        for value in 0..=255u8 {
            compare(&damaged(octets, at, value)[..octets.len()]);
        }
    }
}

#[test]
fn damaged_questions_are_read_as_by_a_plain_reader() {
    // A label of 63 bytes, and behind it what would be a question behind a label of 64.
    let mut long_label = [0x61; 71];
    long_label[0] = 0x3f;
    long_label[64..].copy_from_slice(&[0x00, 0xc0, 0x00, 0x00, 0x01, 0x00, 0x01]);
    let rows: [&[u8]; 5] = [
        &[
            0x06, 0x67, 0x6f, 0x6f, 0x67, 0x6c, 0x65, 0x03, 0x63, 0x6f, 0x6d, 0x00, 0x00, 0x01,
            0x00, 0x01,
        ],
        &[0x01, 0x61, 0x00, 0x00, 0x1c, 0x00, 0x01, 0xff],
        &[0x01, 0x61, 0xc0, 0x0c, 0x00, 0x05, 0x00, 0x01],
        &[0xc0, 0x0c, 0x00, 0x06, 0x00, 0x01, 0xff],
        &long_label,
    ];
    for octets in rows {
        holds_of(octets, is_question(octets));
        compare_damaged(octets);
    }
}

#[test]
fn damaged_records_are_read_as_by_a_plain_reader() {
    const ROWS: &[&[u8]] = &[
        &[
            0xc0, 0x0c, 0x00, 0x01, 0x00, 0x01, 0x00, 0x00, 0x00, 0xca, 0x00, 0x04, 0xac, 0xd9,
            0xa8, 0xae,
        ],
        &[
            0x01, 0x61, 0x00, 0x00, 0x1c, 0x00, 0x01, 0x00, 0x00, 0x00, 0xca, 0x00, 0x10, 0x20,
            0x01, 0, 0, 0, 0, 0, 0, 0, 0, 0, 0, 0, 0, 0, 1,
        ],
        &[
            0xc0, 0x0c, 0x00, 0x05, 0x00, 0x01, 0x00, 0x00, 0x05, 0xf3, 0x00, 0x02, 0xc0, 0x10,
            0xff,
        ],
        &[
            0x01, 0x61, 0xc0, 0x20, 0x00, 0x06, 0x00, 0x01, 0x00, 0x00, 0x03, 0x83, 0x00, 0x01,
            0xaa,
        ],
        &[
            0x00, 0x00, 0xff, 0x00, 0x01, 0xff, 0xff, 0xff, 0xff, 0x00, 0x00,
        ],
    ];
    for &octets in ROWS {
        holds_of(octets, is_record(octets));
        compare_damaged(octets);
    }
}

#[test]
fn damaged_messages_are_read_as_by_a_plain_reader() {
    const ROWS: &[&[u8]] = &[
        &[
            0x51, 0x84, 0x01, 0x20, 0x00, 0x01, 0x00, 0x00, 0x00, 0x00, 0x00, 0x00, 0x06, 0x67,
            0x6f, 0x6f, 0x67, 0x6c, 0x65, 0x03, 0x63, 0x6f, 0x6d, 0x00, 0x00, 0x01, 0x00, 0x01,
        ],
        &[
            0x51, 0x84, 0x81, 0x80, 0x00, 0x01, 0x00, 0x01, 0x00, 0x00, 0x00, 0x00,
        ],
        &[
            0x63, 0xc4, 0x81, 0x83, 0x00, 0x01, 0x00, 0x00, 0x00, 0x01, 0x00, 0x00,
        ],
    ];
    for &octets in ROWS {
        holds_of(octets, Packet::new_checked(octets).is_ok());
        compare_damaged(octets);
    }
}
