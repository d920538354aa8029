// Made from crates/message_brief/src/dns/found.rt by rust/erase.
//! The first question of a DNS message, and the first answer.

use control_wire::dns::{Packet, Type};
use control_wire::inside::octets::octets_of;
use control_wire::record::{DataText, Entries, Entry, Name, Question as Asked, Record, RecordText};
use dns_fields::header::word_of;
use dns_fields::kind::Kind;
use dns_fields::nbns::{Layout, layout_of, split_names};
use dns_fields::node::{OnePart, Part};
use dns_fields::record::read_text;

/// The first question of a message.
pub(crate) enum Question {
    /// There is none.
    Nothing,
    /// None begins where one is to be.
    Unread,
    /// Its name does not read.
    Unnamed(Type),
    /// It reads.
    Named(Type, Name),
}

impl Question {
    /// Whether all of it reads.
    pub(crate) fn is_read(&self) -> bool {
        match self {
            Question::Nothing | Question::Named(_, _) => true,
            Question::Unread | Question::Unnamed(_) => false,
        }
    }
}

/// The first answer of a message.
pub(crate) enum Answer<'a> {
    /// There is none.
    Nothing,
    /// It does not read.
    Unread,
    /// A record as a zone file has it.
    Zone(RecordText<'a>),
    /// A record of the NetBIOS name service that has no entries.
    Empty(Name, Type),
    /// One with the first entry of its data.
    Node(Name, Type, OnePart<'a>),
}

impl Answer<'_> {
    /// Whether all of it reads.
    pub(crate) fn is_read(&self) -> bool {
        match self {
            Answer::Unread => false,
            Answer::Nothing | Answer::Zone(_) | Answer::Empty(_, _) | Answer::Node(_, _, _) => true,
        }
    }
}

/// The first question. Requires at least 12 bytes.
pub(crate) fn question_in(packet: &Packet<&[u8]>) -> Question {
    if packet.question_count() == 0 {
        return Question::Nothing;
    }
    let mut entries = Entries::new(packet);
    match entries.next() {
        Some(Ok(Entry::Question(question))) => named(packet, &question),
        Some(Ok(Entry::Record(_, _))) => Question::Unread,
        Some(Err(_)) => Question::Unread,
        None => Question::Unread,
    }
}

// A question with its name, where this reads.
fn named<'a>(packet: &Packet<&'a [u8]>, question: &Asked<'a>) -> Question {
    match Name::read_or_refusal(packet, question.name) {
        Ok(name) => Question::Named(question.type_, name),
        Err(_) => Question::Unnamed(question.type_),
    }
}

/// The first answer. Requires at least 12 bytes.
pub(crate) fn answer_in<'a>(kind: Kind, packet: &Packet<&'a [u8]>) -> Answer<'a> {
    if packet.answer_record_count() == 0 {
        return Answer::Nothing;
    }
    match first_record(packet) {
        Some(record) => told_by(kind, packet, &record),
        None => Answer::Unread,
    }
}

// The first record.
fn first_record<'a>(packet: &Packet<&'a [u8]>) -> Option<Record<'a>> {
    let mut entries = Entries::new(packet);
    loop {
        match entries.next() {
            Some(Ok(Entry::Record(_, record))) => return Some(record),
            Some(Ok(Entry::Question(_))) => {}
            Some(Err(_)) => return None,
            None => return None,
        }
    }
}

// What a record tells.
fn told_by<'a>(kind: Kind, packet: &Packet<&'a [u8]>, record: &Record<'a>) -> Answer<'a> {
    if kind == Kind::Nbns {
        return told_by_node(packet, record);
    }
    told_by_zone(kind, packet, record)
}

fn told_by_zone<'a>(kind: Kind, packet: &Packet<&'a [u8]>, record: &Record<'a>) -> Answer<'a> {
    match read_text(kind, packet, record) {
        Ok(text) => Answer::Zone(text),
        Err(_) => Answer::Unread,
    }
}

// What a record of the NetBIOS name service tells.
fn told_by_node<'a>(packet: &Packet<&'a [u8]>, record: &Record<'a>) -> Answer<'a> {
    match Name::read_or_refusal(packet, record.name) {
        Ok(name) => node_by(layout_of(word_of(octets_of(packet)), record), name, record),
        Err(_) => Answer::Unread,
    }
}

// A record with its name read, by the layout of its data.
fn node_by<'a>(layout: Layout, name: Name, record: &Record<'a>) -> Answer<'a> {
    if has_no_part(layout, record.data) {
        return Answer::Empty(name, record.type_);
    }
    match layout {
        Layout::Addresses => first_part(Part::Address, name, record.type_, record.data),
        Layout::Names => {
            let (names, _) = split_names(record.data);
            first_part(Part::Name, name, record.type_, names)
        }
        Layout::Octets => Answer::Zone(RecordText {
            name,
            ttl: record.ttl,
            class: record.class,
            type_: record.type_,
            data: DataText::Other(record.data),
        }),
    }
}

// Whether data have no addresses, or count no names.
fn has_no_part(layout: Layout, octets: &[u8]) -> bool {
    match layout {
        Layout::Addresses => octets.is_empty(),
        Layout::Names => !octets.is_empty() && octets[0] == 0,
        Layout::Octets => false,
    }
}

// The first entry of such data.
fn first_part(part: Part, name: Name, type_: Type, octets: &[u8]) -> Answer<'_> {
    let width = part.width();
    if octets.len() < width {
        return Answer::Unread;
    }
    let (octets, _) = octets.split_at(width);
    Answer::Node(name, type_, OnePart { part, octets })
}
