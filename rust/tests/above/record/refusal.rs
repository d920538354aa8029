// Made from crates/tests_above/src/record/refusal.rt by rust/erase.
//! Why octets begin with no question or record.

use crate::testing::{prints, same_of};
use control_wire::record::record::{Question, Record};
use control_wire::record::refusal::{PartRefusal, Refusal};

// A question for the address of `pc.local`, and an answer.
const QUESTION: [u8; 14] = *b"\x02pc\x05local\0\x00\x01\x00\x01";

const ANSWER: [u8; 24] = *b"\x02pc\x05local\0\x00\x01\x00\x01\0\0\0\x78\0\x04\x0a\x01\0\x34";

#[test]
fn questions_that_are_refused() {
    const ROWS: &[(&[u8], Option<Refusal>)] = &[
        (b"", Some(Refusal::Name(PartRefusal::Cut))),
        (b"\x02pc", Some(Refusal::Name(PartRefusal::Cut))),
        (b"\x02p", Some(Refusal::Name(PartRefusal::Cut))),
        (b"\xc0", Some(Refusal::Name(PartRefusal::Cut))),
        (
            b"\x02pc\x40",
            Some(Refusal::Name(PartRefusal::LabelType(0x40))),
        ),
        (b"\xbf\0", Some(Refusal::Name(PartRefusal::LabelType(0xbf)))),
        (b"\0\0\x01\0", Some(Refusal::Fields)),
        (b"\xc0\x0c\0\x01\0", Some(Refusal::Fields)),
        (b"\xc0\x0c\0\x01\0\x01", None),
        (b"\0\0\x01\0\x01\0", None),
    ];
    for &(octets, refusal) in ROWS {
        same_of(octets, Question::refusal(octets), refusal);
    }
}

#[test]
fn records_that_are_refused() {
    const ROWS: &[(&[u8], Option<Refusal>)] = &[
        (b"\x3f", Some(Refusal::Name(PartRefusal::Cut))),
        (b"\x80", Some(Refusal::Name(PartRefusal::LabelType(0x80)))),
        (b"\0\0\x01\0\x01\0\0\0\0\0", Some(Refusal::Fields)),
        (b"\0\0\x01\0\x01\0\0\0\0\0\x01", Some(Refusal::Data)),
        (b"\0\0\x01\0\x01\0\0\0\0\0\x01\0", None),
        (b"\0\0\x01\0\x01\0\0\0\0\0\0\0", None),
    ];
    for &(octets, refusal) in ROWS {
        same_of(octets, Record::refusal(octets), refusal);
    }
}

// Ends the test unless a reason is told exactly where the question and the record at the front are refused.
fn check(octets: &[u8]) {
    let question = Question::refusal(octets).is_none();
    same_of(octets, question, Question::parse(octets).is_ok());
    let record = Record::refusal(octets).is_none();
    same_of(octets, record, Record::parse(octets).is_ok());
}

#[test]
fn reasons_where_messages_are_damaged() {
    for len in 0..=ANSWER.len() {
        check(ANSWER.get(..len).unwrap_or(&[]));
        check(QUESTION.get(..len).unwrap_or(&[]));
    }
    for at in 0..ANSWER.len() {
        for byte in [0, 1, 0x3f, 0x40, 0xbf, 0xc0, 0xff] {
            let mut octets = ANSWER;
            octets[at] = byte;
            check(&octets);
        }
    }
}

#[test]
fn texts_of_refusals() {
    let rows = [
        (Refusal::Name(PartRefusal::Cut), "the name is cut"),
        (
            Refusal::Name(PartRefusal::LabelType(64)),
            "a label that begins with byte 64 is not read",
        ),
        (Refusal::Fields, "the fields behind the name are cut"),
        (Refusal::Data, "the data is cut"),
    ];
    for (refusal, text) in &rows {
        prints(refusal, text);
    }
}
