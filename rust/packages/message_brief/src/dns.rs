// Made from crates/message_brief/src/dns.rt by rust/erase.
//! Brief lines of DNS (RFC 1035 section 4.1), multicast DNS (RFC 6762), LLMNR (RFC 4795) and the NetBIOS name service
//! (RFC 1002 section 4.2): the transaction, what is asked, and the first answer.

mod found;

use crate::words::{Number, put_more, put_word};
use control_wire::Octets;
use control_wire::dns::{Packet, Type};
use control_wire::inside::text::{Sink, put_number};
use control_wire::record::{DataText, Name};
use dns_fields::header::{opcode_name, opcode_of, rcode_name, rcode_of, word_of};
use dns_fields::kind::{Kind, NameOf, TypeOf};
use found::{Answer, Question, answer_in, question_in};
use packet_fields::label::Label;
use packet_fields::output::ToWriter;
use packet_fields::value::Text;
use rattle_std::io;
use rattle_std::io::Write;

// The fields of the header; their picture is in specs/DnsPacket.antt of dns_wire.
mod field {
    use control_wire::Field;

    pub const ID: Field = 0..2;

    pub const QUESTIONS: Field = 4..6;

    pub const ANSWERS: Field = 6..8;
}

// The flags QR, which is clear in a query, and TC.
const RESPONSE: u16 = 0x8000;

const TRUNCATED: u16 = 0x0200;

// The most octets of strings that are put, and of data that are not told apart.
const MOST_STRINGS: usize = 64;

const MOST_OCTETS: usize = 32;

/// Prints what a message says, and returns whether all of that reads.
pub(crate) fn put_dns<W: Write>(output: &mut W, kind: Kind, octets: &[u8]) -> io::Result<bool> {
    let Ok(packet) = Packet::new_checked(octets) else {
        return Ok(false);
    };
    let asked = question_in(&packet);
    put_front::<W, ToWriter>(output, kind, octets)?;
    if is_query(word_of(octets)) {
        put_query::<W, ToWriter>(output, kind, &asked, octets.u16_at(field::QUESTIONS))?;
        return Ok(asked.is_read());
    }
    let answer = answer_in(kind, &packet);
    put_response::<W, ToWriter>(output, kind, &asked, &answer, octets.u16_at(field::ANSWERS))?;
    Ok(are_read(&asked, &answer))
}

fn are_read(asked: &Question, answer: &Answer<'_>) -> bool {
    asked.is_read() && answer.is_read()
}

fn is_query(word: u16) -> bool {
    word < RESPONSE
}

// Puts the transaction, and what the flags say.
fn put_front<O, S: Sink<O>>(output: &mut O, kind: Kind, octets: &[u8]) -> Result<(), S::Error> {
    let word = word_of(octets);
    put_id::<O, S>(output, octets.u16_at(field::ID), is_query(word))?;
    put_flags::<O, S>(output, kind, word)
}

fn put_id<O, S: Sink<O>>(output: &mut O, id: u16, asks: bool) -> Result<(), S::Error> {
    put_word::<O, S, Number>(output, Number(id as u64))?;
    S::put_str(output, if asks { "?" } else { "" })
}

fn put_flags<O, S: Sink<O>>(output: &mut O, kind: Kind, word: u16) -> Result<(), S::Error> {
    put_opcode::<O, S>(output, kind, word)?;
    put_rcode::<O, S>(output, kind, word)?;
    put_truncated::<O, S>(output, word)
}

// Puts the kind of query, but for the usual one.
fn put_opcode<O, S: Sink<O>>(output: &mut O, kind: Kind, word: u16) -> Result<(), S::Error> {
    if opcode_of(word) == 0 {
        return Ok(());
    }
    put_word::<O, S, Label<'_>>(output, opcode_label(kind, word))
}

fn opcode_label(kind: Kind, word: u16) -> Label<'static> {
    Label {
        name: opcode_name(kind, word),
        kind: "opcode",
        number: opcode_of(word) as u8,
    }
}

// Puts the outcome, which a query does not have.
fn put_rcode<O, S: Sink<O>>(output: &mut O, kind: Kind, word: u16) -> Result<(), S::Error> {
    if is_query(word) {
        return Ok(());
    }
    put_word::<O, S, Label<'_>>(output, rcode_label(kind, word))
}

fn rcode_label(kind: Kind, word: u16) -> Label<'static> {
    Label {
        name: rcode_name(kind, word),
        kind: "rcode",
        number: rcode_of(word) as u8,
    }
}

// Puts that a message was truncated, where it was.
fn put_truncated<O, S: Sink<O>>(output: &mut O, word: u16) -> Result<(), S::Error> {
    if word & TRUNCATED == 0 {
        return Ok(());
    }
    put_word::<O, S, &str>(output, "tc")
}

// Puts the first of so many questions.
fn put_query<O, S: Sink<O>>(
    output: &mut O,
    kind: Kind,
    asked: &Question,
    count: u16,
) -> Result<(), S::Error> {
    put_asked::<O, S>(output, kind, asked)?;
    if !asked.is_read() {
        return Ok(());
    }
    put_more::<O, S>(output, others(count))
}

// How many others there are beside the first of so many.
fn others(count: u16) -> u64 {
    count.saturating_sub(1) as u64
}

// Puts what is asked, as far as it reads.
fn put_asked<O, S: Sink<O>>(output: &mut O, kind: Kind, asked: &Question) -> Result<(), S::Error> {
    match asked {
        Question::Named(type_, name) => {
            put_word::<O, S, TypeOf>(output, TypeOf(kind, *type_))?;
            put_word::<O, S, NameOf<'_>>(output, NameOf(kind, name))
        }
        Question::Unnamed(type_) => put_word::<O, S, TypeOf>(output, TypeOf(kind, *type_)),
        Question::Nothing | Question::Unread => Ok(()),
    }
}

// Puts what is asked, and the first of so many answers.
fn put_response<O, S: Sink<O>>(
    output: &mut O,
    kind: Kind,
    asked: &Question,
    answer: &Answer<'_>,
    count: u16,
) -> Result<(), S::Error> {
    put_asked::<O, S>(output, kind, asked)?;
    if !asked.is_read() {
        return Ok(());
    }
    put_answer::<O, S>(output, kind, asked, answer, count)
}

fn put_answer<O, S: Sink<O>>(
    output: &mut O,
    kind: Kind,
    asked: &Question,
    answer: &Answer<'_>,
    count: u16,
) -> Result<(), S::Error> {
    match answer {
        Answer::Zone(text) => {
            put_lead::<O, S>(output, kind, asked, &text.name, text.type_)?;
            put_data::<O, S>(output, &text.data)?;
            put_more::<O, S>(output, others(count))
        }
        Answer::Empty(name, type_) => {
            put_lead::<O, S>(output, kind, asked, name, *type_)?;
            S::put_str(output, "-")?;
            put_more::<O, S>(output, others(count))
        }
        Answer::Node(name, type_, part) => {
            put_lead::<O, S>(output, kind, asked, name, *type_)?;
            part.put_into::<O, S>(output)?;
            put_more::<O, S>(output, others(count))
        }
        Answer::Nothing | Answer::Unread => Ok(()),
    }
}

// Puts what stands before the data of an answer: its type where another is asked for, or where nothing is asked for its
// type and its name.
fn put_lead<O, S: Sink<O>>(
    output: &mut O,
    kind: Kind,
    asked: &Question,
    name: &Name,
    type_: Type,
) -> Result<(), S::Error> {
    match asked {
        Question::Named(asked, _) => {
            S::put_str(output, " = ")?;
            put_other_type::<O, S>(output, kind, *asked, type_)
        }
        Question::Nothing | Question::Unread | Question::Unnamed(_) => {
            put_word::<O, S, TypeOf>(output, TypeOf(kind, type_))?;
            put_word::<O, S, NameOf<'_>>(output, NameOf(kind, name))?;
            S::put_str(output, " = ")
        }
    }
}

fn put_other_type<O, S: Sink<O>>(
    output: &mut O,
    kind: Kind,
    asked: Type,
    type_: Type,
) -> Result<(), S::Error> {
    if is_same(asked, type_) {
        return Ok(());
    }
    TypeOf(kind, type_).put_into::<O, S>(output)?;
    S::put_str(output, " ")
}

fn is_same(asked: Type, type_: Type) -> bool {
    u16::from(asked) == u16::from(type_)
}

// Puts data, or how many octets they are.
fn put_data<O, S: Sink<O>>(output: &mut O, data: &DataText<'_>) -> Result<(), S::Error> {
    match data {
        DataText::Txt(octets) => put_long_or::<O, S>(output, MOST_STRINGS, octets, data),
        DataText::Other(octets) => put_long_or::<O, S>(output, MOST_OCTETS, octets, data),
        _ => data.put::<O, S>(output),
    }
}

// Puts data of these octets, or where they are more than the most how many they are.
fn put_long_or<O, S: Sink<O>>(
    output: &mut O,
    most: usize,
    octets: &[u8],
    data: &DataText<'_>,
) -> Result<(), S::Error> {
    if octets.len() > most {
        put_number::<O, S>(output, octets.len() as u64)?;
        return S::put_str(output, " bytes");
    }
    data.put::<O, S>(output)
}
