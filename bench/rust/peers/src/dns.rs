//! A query, and a response with an alias and its addresses, beside hickory-proto.

use crate::measure::row;
use control_wire::dns::{Flags, Opcode, Packet, Question, Record, RecordData, Repr, Type};
use control_wire::record::Name;
use hickory_proto::op::{Message, Query};
use hickory_proto::rr::{Name as HickoryName, RecordType};
use std::hint::black_box;
use std::str::FromStr;

// The question www.example.org; that it is an alias of web.example.org; and two addresses of that.
const RESPONSE: &[u8] = b"\x12\x34\x81\x80\0\x01\0\x03\0\0\0\0\
    \x03www\x07example\x03org\0\0\x01\0\x01\
    \xc0\x0c\0\x05\0\x01\0\0\x0e\x10\0\x06\x03web\xc0\x10\
    \xc0\x2d\0\x01\0\x01\0\0\x0e\x10\0\x04\xc0\0\x02\x07\
    \xc0\x2d\0\x01\0\x01\0\0\x0e\x10\0\x04\xc0\0\x02\x08";

// Reads all that is in a response, with each name as a whole; counts the octets of the names and the data.
fn read_all(octets: &[u8]) -> control_wire::Result<usize> {
    let packet = Packet::new_checked(octets)?;
    let (mut rest, question) = Question::parse(packet.payload())?;
    let mut count = Name::read(&packet, question.name)?.octets().len();
    for _ in 0..packet.answer_record_count() {
        let (behind, record) = Record::parse(rest)?;
        count += Name::read(&packet, record.name)?.octets().len();
        count += match record.data {
            RecordData::A(_) => 4,
            RecordData::Aaaa(_) => 16,
            RecordData::Cname(name) => Name::read(&packet, name)?.octets().len(),
            RecordData::Other(_, data) => data.len(),
        };
        rest = behind;
    }
    Ok(count)
}

// The same of the message that hickory-proto read.
fn count_all(message: &Message) -> usize {
    let names = message
        .answers()
        .iter()
        .map(|record| record.name().len() + 1);
    let data = message.answers().iter().map(|record| match record.data() {
        Some(hickory_proto::rr::RData::CNAME(name)) => name.len() + 1,
        Some(hickory_proto::rr::RData::A(_)) => 4,
        _ => 0,
    });
    message.queries()[0].name().len() + 1 + names.sum::<usize>() + data.sum::<usize>()
}

pub fn rows() {
    let theirs = || Message::from_vec(black_box(RESPONSE)).unwrap();
    assert_eq!(read_all(RESPONSE), Ok(count_all(&theirs())));
    row(
        "DNS response, read",
        "hickory",
        || read_all(black_box(RESPONSE)),
        theirs,
    );

    let name = Name::from_text(b"www.example.org").unwrap();
    let question = Question {
        name: name.octets(),
        type_: Type::A,
    };
    let query = Repr {
        transaction_id: 0x1234,
        opcode: Opcode::Query,
        flags: Flags::RECURSION_DESIRED,
        question,
    };
    let mut message = Message::new();
    let name = HickoryName::from_str("www.example.org.").unwrap();
    message
        .set_id(0x1234)
        .set_recursion_desired(true)
        .add_query(Query::query(name, RecordType::A));
    let mut out = vec![0; query.buffer_len()];
    query.emit_into(&mut out);
    assert_eq!(out, message.to_vec().unwrap());
    let theirs = || black_box(&message).to_vec().unwrap();
    row(
        "DNS query, written",
        "hickory",
        || black_box(&query).emit_into(black_box(&mut out)),
        theirs,
    );

    let text = b"www.example.org";
    let read = || Name::from_text(black_box(text)).unwrap().octets().len();
    let theirs = || {
        HickoryName::from_str(black_box("www.example.org."))
            .unwrap()
            .len()
            + 1
    };
    assert_eq!(read(), theirs());
    row("DNS name, of its text", "hickory", read, theirs);
}
