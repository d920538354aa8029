// Made from crates/tests_above/src/record/entries.rt by rust/erase.
//! The questions and the records of messages.

use crate::testing::{prints, same, same_of};
use control_wire::dns::{Packet, Type};
use control_wire::record::entries::{Entries, Entry, Section};
use control_wire::record::record::{Question, Record};
use control_wire::record::refusal::{PartRefusal, Refusal};
use control_wire::{Error, Result};

// A response of a real server for www.facebook.com: its canonical name, and the address of that.
const RESPONSE: [u8; 79] = [
    0x78, 0x6c, 0x81, 0x80, 0x00, 0x01, 0x00, 0x02, 0x00, 0x00, 0x00, 0x00, 0x03, 0x77, 0x77, 0x77,
    0x08, 0x66, 0x61, 0x63, 0x65, 0x62, 0x6f, 0x6f, 0x6b, 0x03, 0x63, 0x6f, 0x6d, 0x00, 0x00, 0x01,
    0x00, 0x01, 0xc0, 0x0c, 0x00, 0x05, 0x00, 0x01, 0x00, 0x00, 0x05, 0xf3, 0x00, 0x11, 0x09, 0x73,
    0x74, 0x61, 0x72, 0x2d, 0x6d, 0x69, 0x6e, 0x69, 0x04, 0x63, 0x31, 0x30, 0x72, 0xc0, 0x10, 0xc0,
    0x2e, 0x00, 0x01, 0x00, 0x01, 0x00, 0x00, 0x00, 0x05, 0x00, 0x04, 0x1f, 0x0d, 0x53, 0x24,
];

// A query of a real client for the address of example.com, with an OPT record: payloads of 4,096 bytes (RFC 6891
// section 6.1.2).
const QUERY: [u8; 40] = [
    0x24, 0x1a, 0x01, 0x20, 0x00, 0x01, 0x00, 0x00, 0x00, 0x00, 0x00, 0x01, 0x07, 0x65, 0x78, 0x61,
    0x6d, 0x70, 0x6c, 0x65, 0x03, 0x63, 0x6f, 0x6d, 0x00, 0x00, 0x01, 0x00, 0x01, 0x00, 0x00, 0x29,
    0x10, 0x00, 0x00, 0x00, 0x00, 0x00, 0x00, 0x00,
];

// Ends the test unless the message has these questions and records and no more.
fn check(message: &[u8], entries: &[Result<Entry<'_>>]) {
    let Ok(packet) = Packet::new_checked(message) else {
        panic!("no message");
    };
    let mut left = Entries::new(&packet);
    for entry in entries {
        same(left.next(), Some(*entry));
    }
    for _ in 0..2 {
        same(left.next(), None);
    }
}

#[test]
fn a_question_and_two_answers() {
    let question = Question {
        name: &RESPONSE[12..30],
        type_: Type::A,
        class: 1,
    };
    let alias = Record {
        name: &RESPONSE[34..36],
        type_: Type::Cname,
        class: 1,
        ttl: 1523,
        data: &RESPONSE[46..63],
    };
    let address = Record {
        name: &RESPONSE[63..65],
        type_: Type::A,
        class: 1,
        ttl: 5,
        data: &[31, 13, 83, 36],
    };
    let entries = [
        Ok(Entry::Question(question)),
        Ok(Entry::Record(Section::Answer, alias)),
        Ok(Entry::Record(Section::Answer, address)),
    ];
    check(&RESPONSE, &entries);
    let cut = [
        Ok(Entry::Question(question)),
        Ok(Entry::Record(Section::Answer, alias)),
        Err(Error),
    ];
    check(&RESPONSE[..78], &cut);
}

#[test]
fn records_of_the_other_sections() {
    let mut authority = RESPONSE;
    authority[7] = 1;
    authority[9] = 1;
    let mut additional = RESPONSE;
    additional[7] = 0;
    additional[11] = 2;
    let mut more = RESPONSE;
    more[7] = 3;
    let rows: [(&[u8], [Option<Section>; 4]); 3] = [
        (
            &authority,
            [Some(Section::Answer), Some(Section::Authority), None, None],
        ),
        (
            &additional,
            [
                Some(Section::Additional),
                Some(Section::Additional),
                None,
                None,
            ],
        ),
        (
            &more,
            [Some(Section::Answer), Some(Section::Answer), None, None],
        ),
    ];
    for (message, sections) in &rows {
        check_sections(message, sections);
    }
}

// Ends the test unless there is a question, and then records of these sections, none where there is none.
fn check_sections(message: &[u8], sections: &[Option<Section>]) {
    let Ok(packet) = Packet::new_checked(message) else {
        panic!("no message");
    };
    let mut left = Entries::new(&packet);
    let first = left.next();
    same_of(message, first.is_some(), true);
    for section in sections {
        let found = match left.next() {
            Some(Ok(Entry::Record(section, _))) => Some(section),
            _ => None,
        };
        same_of(message, found, *section);
    }
}

#[test]
fn a_query_with_options_of_its_message() {
    let question = Question {
        name: &QUERY[12..25],
        type_: Type::A,
        class: 1,
    };
    let options = Record {
        name: &[0],
        type_: Type::Unknown(41),
        class: 4096,
        ttl: 0,
        data: &[],
    };
    let entries = [
        Ok(Entry::Question(question)),
        Ok(Entry::Record(Section::Additional, options)),
    ];
    check(&QUERY, &entries);
}

#[test]
fn texts_of_entries() {
    let question = Question {
        name: &QUERY[12..25],
        type_: Type::A,
        class: 1,
    };
    prints(
        &Entry::Question(question),
        "question name_len=13 type=A class=IN",
    );
    let record = Record {
        name: &RESPONSE[63..65],
        type_: Type::A,
        class: 1,
        ttl: 5,
        data: &[31, 13, 83, 36],
    };
    let rows = [
        (
            Section::Question,
            "question record name_len=2 type=A class=IN ttl=5 len=4",
        ),
        (
            Section::Answer,
            "answer record name_len=2 type=A class=IN ttl=5 len=4",
        ),
        (
            Section::Authority,
            "authority record name_len=2 type=A class=IN ttl=5 len=4",
        ),
        (
            Section::Additional,
            "additional record name_len=2 type=A class=IN ttl=5 len=4",
        ),
    ];
    for (section, text) in &rows {
        prints(&Entry::Record(*section, record), text);
    }
}

// The octets of a message in an array of its own.
#[test]
fn entries_of_an_owned_buffer() {
    let buffer = QUERY;
    check_sections(&buffer[..], &[Some(Section::Additional), None]);
}

// Ends the test unless so many entries of a message read, and then this many bytes are left for this reason.
fn check_end(message: &[u8], read: u32, rest: usize, refusal: Option<(Section, Refusal)>) {
    let Ok(packet) = Packet::new_checked(message) else {
        panic!("no message");
    };
    let mut left = Entries::new(&packet);
    for _ in 0..read {
        same_of(message, left.refusal(), None);
        same_of(message, matches!(left.next(), Some(Ok(_))), true);
    }
    same_of(message, left.refusal(), None);
    // Once more behind the end, which changes nothing.
    for _ in 0..2 {
        same_of(message, matches!(left.next(), Some(Ok(_))), false);
        same_of(message, left.refusal(), refusal);
        same_of(message, left.rest().len(), rest);
    }
}

#[test]
fn why_and_where_entries_end() {
    check_end(&RESPONSE, 3, 0, None);
    // The data of the second answer, which begins at 63, is cut; then its fields, then its name.
    check_end(
        &RESPONSE[..78],
        2,
        15,
        Some((Section::Answer, Refusal::Data)),
    );
    check_end(
        &RESPONSE[..74],
        2,
        11,
        Some((Section::Answer, Refusal::Fields)),
    );
    let cut = Refusal::Name(PartRefusal::Cut);
    check_end(&RESPONSE[..64], 2, 1, Some((Section::Answer, cut)));
    // The question, of which the last byte is missing.
    check_end(
        &QUERY[..28],
        0,
        16,
        Some((Section::Question, Refusal::Fields)),
    );
    let mut authority = RESPONSE;
    authority[7] = 2;
    authority[9] = 1;
    check_end(&authority, 3, 0, Some((Section::Authority, cut)));
    let mut label = QUERY;
    label[29] = 0x80;
    let kind = Refusal::Name(PartRefusal::LabelType(0x80));
    check_end(&label, 1, 11, Some((Section::Additional, kind)));
}
