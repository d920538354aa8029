// Made from crates/workloads/src/responses/message.rt by rust/erase.
//! DNS responses: they are written by hand, as a server does, and read by the library.

use crate::digest::Digest;
use crate::digest::ip::{add_ipv4_address, add_ipv6_address};
use crate::random::{Pool, Random};
use arrayvec::ArrayString;
use control_wire::dns::{Opcode, Packet, Rcode, Type};
use control_wire::record::rdata::{Authority, RData};
use control_wire::record::{Entries, Entry, Name, Question, Record};
use rattle_std::io;
#[allow(unused_imports)]
use rattle_std::prelude::*;
use std::fmt::Write;

// The bytes of the header, which the question follows.
const HEADER_LEN: usize = 12;

// The bytes of letters that are kept.
const LETTERS_LEN: usize = 65_536;

// The most bytes of a record that is written here.
const MOST_RECORD_LEN: usize = 128;

// The most bytes of a name's text: its labels are letters.
const TEXT_LEN: usize = 256;

// The types of records.
const TYPE_A: u16 = 1;

const TYPE_CNAME: u16 = 5;

const TYPE_MX: u16 = 15;

const TYPE_TXT: u16 = 16;

const TYPE_AAAA: u16 = 28;

const CLASS_IN: u16 = 1;

const CLASS_CHAOS: u16 = 3;

/// Labels are parts of these letters.
pub struct Letters {
    octets: Vec<u8>,
}

impl Letters {
    /// As many letters as a generator gives.
    pub fn new(random: &mut Random) -> io::Result<Letters> {
        let mut octets = Vec::new();
        for _ in 0..LETTERS_LEN / 8 {
            for byte in random.next().to_le_bytes() {
                octets.push(b'a' + byte % 26)?;
            }
        }
        Ok(Letters { octets })
    }

    /// This many letters, from a place on that the number determines.
    pub fn part(&self, number: u64, len: usize) -> &[u8] {
        let octets = self.octets.as_slice();
        let start = ((number % 65_000) as usize).min(octets.len());
        let len = len.min(octets.len() - start);
        &octets[start..start + len]
    }
}

// The places of names that pointers lead to.
#[derive(Clone, Copy)]
struct Places {
    // The second label of the question.
    parent: u16,
    // The name in the data that was written last, or the question.
    last: u16,
}

/// The lower 16 bits of a number.
pub fn low(number: u64) -> u16 {
    (number % 65_536) as u16
}

/// Writes bytes at a place, where there is room for them, and returns the place after them.
pub fn put(octets: &mut [u8], place: usize, bytes: &[u8]) -> usize {
    let place = place.min(octets.len());
    if bytes.len() > octets.len() - place {
        return place;
    }
    let end = place + bytes.len();
    octets[place..end].copy_from_slice(bytes);
    end
}

/// Writes a number of 16 bits at a place.
pub fn put_u16(octets: &mut [u8], place: usize, number: u16) -> usize {
    put(octets, place, &number.to_be_bytes())
}

// Writes a label of 3 to 10 letters at a place.
fn put_label(octets: &mut [u8], place: usize, letters: &Letters, number: u64) -> usize {
    let len = 3 + number % 8;
    let place = put(octets, place, &[len as u8]);
    put(octets, place, letters.part(number >> 8, len as usize))
}

// Writes a pointer at a place.
fn put_pointer(octets: &mut [u8], place: usize, target: u16) -> usize {
    put_u16(octets, place, 0xc000 | (target % 0x4000))
}

/// Writes a name of 3 to 6 labels to the start of the octets, and returns its length in bytes.
pub fn write_name(octets: &mut [u8], letters: &Letters, number: u64) -> usize {
    let place = put_label(octets, 0, letters, number);
    put_parent(octets, place, letters, number)
}

// Writes the further labels of a name at a place, and returns the place after it.
fn put_parent(octets: &mut [u8], start: usize, letters: &Letters, number: u64) -> usize {
    let mut place = start;
    let mut rest = number >> 24;
    for _ in 0..2 + number % 4 {
        place = put_label(octets, place, letters, rest);
        rest = rest.rotate_right(7);
    }
    put(octets, place, &[0])
}

// Writes a question after the header, and returns the place after it and that of its name's second label.
fn put_question(octets: &mut [u8], letters: &Letters, number: u64) -> (usize, usize) {
    let parent = put_label(octets, HEADER_LEN, letters, number);
    let type_ = put_parent(octets, parent, letters, number);
    let class = put_u16(octets, type_, TYPE_A);
    (put_u16(octets, class, CLASS_IN), parent)
}

// Writes the data of a record and its length at a place, and returns its type, the place after it, and that of the name
// in it where there is one.
fn put_data(
    octets: &mut [u8],
    place: usize,
    letters: &Letters,
    number: u64,
    target: u16,
) -> (u16, usize, usize) {
    let start = put_u16(octets, place, 0);
    match number % 8 {
        0 | 1 => (
            TYPE_A,
            put(octets, start, &((number >> 32) as u32).to_be_bytes()),
            0,
        ),
        2 | 3 => (
            TYPE_AAAA,
            put(octets, start, &(number as u128).to_be_bytes()),
            0,
        ),
        4 | 5 => {
            let end = put_label(octets, start, letters, number >> 8);
            (TYPE_CNAME, put_pointer(octets, end, target), start)
        }
        6 => {
            let name = put_u16(octets, start, low(number >> 40) % 100);
            let end = put_label(octets, name, letters, number >> 8);
            (TYPE_MX, put_pointer(octets, end, target), name)
        }
        _ => {
            let len = 8 + (number >> 8) % 56;
            let text = put(octets, start, &[len as u8]);
            let end = put(octets, text, letters.part(number >> 16, len as usize));
            (TYPE_TXT, end, 0)
        }
    }
}

// The class of a record: of one in 32 another than the internet's.
fn class_of(number: u64) -> u16 {
    if (number >> 50) % 32 == 0 {
        CLASS_CHAOS
    } else {
        CLASS_IN
    }
}

// Writes a record at a place, and returns the place after it.
fn put_record(
    octets: &mut [u8],
    start: usize,
    letters: &Letters,
    number: u64,
    places: &mut Places,
) -> usize {
    let owner = if number >> 63 == 0 {
        put_pointer(octets, start, HEADER_LEN as u16)
    } else {
        let label = put_label(octets, start, letters, number >> 20);
        put_pointer(octets, label, places.parent)
    };
    let class = put_u16(octets, owner, 0);
    let ttl = put_u16(octets, class, class_of(number));
    let len = put(octets, ttl, &((number % 86_400) as u32).to_be_bytes());
    let target = if (number >> 62) % 2 == 0 {
        places.parent
    } else {
        places.last
    };
    let (type_, end, name) = put_data(octets, len, letters, number, target);
    put_u16(octets, owner, type_);
    put_u16(
        octets,
        len,
        low(end.saturating_sub(len).saturating_sub(2) as u64),
    );
    if name != 0 {
        places.last = low(name as u64);
    }
    end
}

/// Writes a response of a number of records to the start of the octets, as far as they have room, and returns its
/// length in bytes.
pub fn write(octets: &mut [u8], letters: &Letters, random: &mut Random, records: u32) -> usize {
    let (mut end, parent) = put_question(octets, letters, random.next());
    let mut places = Places {
        parent: low(parent as u64),
        last: HEADER_LEN as u16,
    };
    let mut count = 0u16;
    for _ in 0..records.min(1_000) {
        if octets.len().saturating_sub(end) < MOST_RECORD_LEN {
            break;
        }
        end = put_record(octets, end, letters, random.next(), &mut places);
        count = count.saturating_add(1);
    }
    let authorities = count / 6;
    let additional = count / 4;
    let place = put_u16(octets, 0, low(random.next()));
    let place = put_u16(octets, place, 0x8180);
    let place = put_u16(octets, place, 1);
    let place = put_u16(octets, place, count - authorities - additional);
    let place = put_u16(octets, place, authorities);
    put_u16(octets, place, additional);
    end
}

/// Reads a response and all its names, and adds what they are.
pub fn read(octets: &[u8], digest: &mut Digest) {
    let Ok(packet) = Packet::new_checked(octets) else {
        digest.add(1);
        return;
    };
    digest.add(packet.transaction_id() as u64);
    digest.add(packet.flags().bits() as u64);
    add_codes(packet.opcode(), packet.rcode(), digest);
    digest.add(packet.question_count() as u64);
    digest.add(packet.answer_record_count() as u64);
    digest.add(packet.authority_record_count() as u64);
    digest.add(packet.additional_record_count() as u64);
    for entry in Entries::new(&packet) {
        match entry {
            Ok(Entry::Question(question)) => {
                add_question(&packet, &question, digest);
            }
            Ok(Entry::Record(section, record)) => {
                digest.add(section as u64);
                add_record(&packet, &record, digest);
            }
            Err(_) => digest.add(2),
        }
    }
}

// Adds the kind and the outcome of a query.
fn add_codes(opcode: Opcode, rcode: Rcode, digest: &mut Digest) {
    let is_named = !matches!(opcode, Opcode::Unknown(_));
    digest.add_numbered(u8::from(opcode) as u16, is_named);
    let is_named = !matches!(rcode, Rcode::Unknown(_));
    digest.add_numbered(u8::from(rcode) as u16, is_named);
}

// Adds the type of records.
fn add_type(type_: Type, digest: &mut Digest) {
    let is_named = !matches!(type_, Type::Unknown(_));
    digest.add_numbered(u16::from(type_), is_named);
}

// Adds what a question asks.
fn add_question<'a>(packet: &Packet<&'a [u8]>, question: &Question<'a>, digest: &mut Digest) {
    let Question { name, type_, class } = question;
    digest.add(name.len() as u64);
    add_name(packet, name, digest);
    add_type(*type_, digest);
    digest.add(*class as u64);
}

// Adds what a record says.
fn add_record<'a>(packet: &Packet<&'a [u8]>, record: &Record<'a>, digest: &mut Digest) {
    let Record {
        name,
        type_,
        class,
        ttl,
        data,
    } = record;
    digest.add(name.len() as u64);
    add_name(packet, name, digest);
    add_type(*type_, digest);
    digest.add(*class as u64);
    digest.add(*ttl as u64);
    digest.add(data.len() as u64);
    match RData::parse(*type_, *class, data) {
        Ok(data) => add_data(packet, &data, digest),
        Err(_) => digest.add(4),
    }
}

// Adds what the data of a record says.
fn add_data<'a>(packet: &Packet<&'a [u8]>, data: &RData<'a>, digest: &mut Digest) {
    match data {
        RData::A(address) => add_ipv4_address(address, digest),
        RData::Aaaa(address) => add_ipv6_address(address, digest),
        RData::Name(name) => add_name(packet, name, digest),
        RData::Mx {
            preference,
            exchange,
        } => {
            digest.add(*preference as u64);
            add_name(packet, exchange, digest);
        }
        RData::Srv {
            priority,
            weight,
            port,
            target,
        } => {
            digest.add(*priority as u64);
            digest.add(*weight as u64);
            digest.add(*port as u64);
            add_name(packet, target, digest);
        }
        RData::Soa(authority) => add_authority(packet, authority, digest),
        RData::Txt(strings) => digest.add_octets(strings),
        // Other data, and fields, which the library at the start does not have.
        _ => add_other(data, digest),
    }
}

// Adds the octets of data of another type.
fn add_other(data: &RData<'_>, digest: &mut Digest) {
    if let RData::Other(octets) = data {
        digest.add(3);
        digest.add_octets(octets);
    }
}

// Adds who is responsible for a zone.
fn add_authority<'a>(packet: &Packet<&'a [u8]>, authority: &Authority<'a>, digest: &mut Digest) {
    let Authority {
        primary,
        mailbox,
        serial,
        refresh,
        retry,
        expire,
        minimum,
    } = authority;
    add_name(packet, primary, digest);
    add_name(packet, mailbox, digest);
    for number in [*serial, *refresh, *retry, *expire, *minimum] {
        digest.add(number as u64);
    }
}

/// Reads a name, and adds its octets and its text.
pub fn add_name<'a>(packet: &Packet<&'a [u8]>, bytes: &'a [u8], digest: &mut Digest) {
    let Ok(name) = Name::read(packet, bytes) else {
        digest.add(5);
        return;
    };
    digest.add_octets(name.octets());
    let mut text = ArrayString::<TEXT_LEN>::new();
    match write!(text, "{name}") {
        Ok(()) => digest.add_octets(text.as_str().as_bytes()),
        Err(_) => digest.add(6),
    }
}
