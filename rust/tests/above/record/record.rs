// Made from crates/tests_above/src/record/record.rt by rust/erase.
//! What questions and records print, and those of multicast DNS.

use crate::testing::{prints, same_of};
use control_wire::dns::Type;
use control_wire::record::multicast::{class_of, has_top_bit};
use control_wire::record::rdata::RData;
use control_wire::record::record::{Question, Record};
use control_wire::{Ipv4Address, Result};

// The octets of a question of multicast DNS for the address of `pc.local`, but for its class.
const NAME: &[u8] = b"\x02pc\x05local\0";

// Ends the test unless a question of this class is of the class without the bit, and wants a unicast answer or not.
fn check_question(class: u16, without: u16, unicast: bool) {
    let question = Question {
        name: NAME,
        type_: Type::A,
        class,
    };
    same_of(class, question.multicast_class(), without);
    same_of(class, question.wants_unicast(), unicast);
    same_of(class, class_of(class), without);
    same_of(class, has_top_bit(class), unicast);
}

#[test]
fn questions_of_multicast_dns() {
    const ROWS: [(u16, u16, bool); 4] = [
        (1, 1, false),
        (0x8001, 1, true),
        (0x7fff, 0x7fff, false),
        (0x80ff, 255, true),
    ];
    for (class, without, unicast) in ROWS {
        check_question(class, without, unicast);
    }
}

// Ends the test unless the record has this class without the bit, flushes caches or not, and has this data in multicast
// DNS.
fn check_record(record: Record<'_>, without: u16, flushes: bool, data: Result<RData<'_>>) {
    same_of(record, record.multicast_class(), without);
    same_of(record, record.flushes_cache(), flushes);
    same_of(record, record.multicast_rdata(), data);
    same_of(
        record,
        RData::parse_multicast(record.type_, record.class, record.data),
        data,
    );
}

#[test]
fn records_of_multicast_dns() {
    let address = RData::A(Ipv4Address::new(10, 1, 0, 52));
    let octets = [10, 1, 0, 52];
    let shared = Record {
        name: NAME,
        type_: Type::A,
        class: 1,
        ttl: 120,
        data: &octets,
    };
    check_record(shared, 1, false, Ok(address));
    same_of("by its class", shared.rdata(), Ok(address));
    let unique = Record {
        class: 0x8001,
        ..shared
    };
    check_record(unique, 1, true, Ok(address));
    same_of(
        "by its raw class",
        unique.rdata(),
        Ok(RData::Other(&octets)),
    );
    // An OPT record of a sender that takes payloads of 32,769 bytes.
    let options = Record {
        name: &[0],
        type_: Type::Unknown(41),
        class: 0x8001,
        ttl: 0,
        data: &[],
    };
    check_record(options, 0x8001, false, Ok(RData::Other(&[])));
}

#[test]
fn texts_of_questions_and_records() {
    let question = Question {
        name: NAME,
        type_: Type::Unknown(12),
        class: 1,
    };
    prints(&question, "question name_len=10 type=PTR class=IN");
    let record = Record {
        name: NAME,
        type_: Type::Unknown(9999),
        class: 0x8001,
        ttl: 120,
        data: &[1, 2, 3],
    };
    prints(
        &record,
        "record name_len=10 type=TYPE9999 class=CLASS32769 ttl=120 len=3",
    );
}
