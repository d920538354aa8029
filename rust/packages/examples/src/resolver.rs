// Made from crates/examples/src/resolver.rt by rust/erase.
//! A resolver: the query for a name, and the addresses that the response has for it (RFC 1035 section 4).
//!
//! A name is given as it is written in messages: labels of 1 to 63 bytes, each after its length, and byte 0;
//! `record::Name` makes it from text. Names are equal where their labels are, letters of ASCII in either case (RFC
//! 1035 section 2.3.3, RFC 4343).

use control_wire::dns::{Flags, Opcode, Packet, Question, Rcode, Record, RecordData, Repr, Type};
use control_wire::record::Name;
use control_wire::{Ipv4Address, Ipv6Address, Result};

/// An address of a name.
#[derive(Debug, PartialEq, Eq, Clone, Copy)]
pub enum Address {
    /// An IPv4 address, of a record of type A.
    V4(Ipv4Address),
    /// An IPv6 address, of a record of type AAAA.
    V6(Ipv6Address),
}

/// An address of a name, and the number of seconds for which it may be kept.
#[derive(Debug, PartialEq, Eq, Clone, Copy)]
pub struct AddressRecord {
    /// The address.
    pub address: Address,
    /// The time to live, in seconds.
    pub ttl: u32,
}

/// Writes the query for the records of a type at the name of a text to the start of the octets, and returns its length
/// in bytes: None where they are too short. Refused where the text is no name (RFC 1035 section 5.1).
pub fn query_text(
    transaction_id: u16,
    text: &[u8],
    type_: Type,
    out: &mut [u8],
) -> Result<Option<usize>> {
    let name = Name::from_text(text)?;
    Ok(query(transaction_id, name.octets(), type_, out))
}

/// Writes the query for the records of a type at a name to the start of the octets, and returns its length in bytes.
/// None exactly where they are too short; then they are unchanged. Requires a name of at most 255 bytes (RFC 1035
/// section 2.3.4).
pub fn query(transaction_id: u16, name: &[u8], type_: Type, out: &mut [u8]) -> Option<usize> {
    let question = Question { name, type_ };
    let query = Repr {
        transaction_id,
        opcode: Opcode::Query,
        flags: Flags::RECURSION_DESIRED,
        question,
    };
    let len = query.buffer_len();
    if out.len() < len {
        return None;
    }
    query.emit_into(&mut out[..len]);
    Some(len)
}

/// The part of a response's answers that is still to be read, and the name whose addresses are sought in it.
#[derive(Clone, Copy)]
pub struct Answers<'a> {
    /// The whole response, for the pointers of its names.
    pub message: &'a [u8],
    /// The name, in the form that is written in a message.
    pub name: &'a [u8],
    /// The type of the addresses, A or AAAA.
    pub type_: Type,
    /// The number of records that are left.
    pub left: u16,
    /// The bytes from the next record on.
    pub bytes: &'a [u8],
}

/// What the response to a query tells.
#[derive(Clone, Copy)]
pub enum Response<'a> {
    /// The query succeeded, and these are all answers.
    Whole(Answers<'a>),
    /// The query succeeded, and these are as many answers as a datagram had room for: TCP gives all of them (RFC 1035
    /// section 4.2, RFC 7766 section 5).
    Truncated(Answers<'a>),
    /// The query failed: there is no such name (`NXDomain`), or the server has a fault (`ServFail`), refuses
    /// (`Refused`), or another code.
    Failed(Rcode),
}

/// What the response to a query tells. None exactly where the octets are no response to it.
pub fn read_answers<'a>(
    message: &'a [u8],
    transaction_id: u16,
    name: &'a [u8],
    type_: Type,
) -> Option<Response<'a>> {
    let packet = match Packet::new_checked(message) {
        Ok(packet) => packet,
        Err(_) => return None,
    };
    if !responds(&packet, transaction_id) {
        return None;
    }
    let bytes = match after_question(message, name, type_) {
        Some(bytes) => bytes,
        None => return None,
    };
    let answers = Answers {
        message,
        name,
        type_,
        left: packet.answer_record_count(),
        bytes,
    };
    Some(match packet.rcode() {
        Rcode::NoError if packet.flags().contains(Flags::TRUNCATED) => Response::Truncated(answers),
        Rcode::NoError => Response::Whole(answers),
        code => Response::Failed(code),
    })
}

// Whether the header is that of the response to a query.
fn responds(packet: &Packet<&[u8]>, transaction_id: u16) -> bool {
    if packet.transaction_id() != transaction_id {
        return false;
    }
    if !packet.flags().contains(Flags::RESPONSE) {
        return false;
    }
    if packet.opcode() != Opcode::Query {
        return false;
    }
    packet.question_count() == 1
}

// What follows the question, where it is the question that was asked.
fn after_question<'a>(message: &'a [u8], name: &'a [u8], type_: Type) -> Option<&'a [u8]> {
    let packet = Packet::new_unchecked(message);
    let (rest, question) = match Question::parse(packet.payload()) {
        Ok(read) => read,
        Err(_) => return None,
    };
    if question.type_ != type_ {
        return None;
    }
    if !same_name(&packet, question.name, name) {
        return None;
    }
    Some(rest)
}

/// The next address of the name, of the type that was asked for, and what is left to read after it. None where there is
/// no further one, up to the first record that can't be read. An alias counts for the records after it.
pub fn next_address(answers: Answers<'_>) -> Option<(AddressRecord, Answers<'_>)> {
    let message = answers.message;
    let type_ = answers.type_;
    let packet = Packet::new_unchecked(message);
    let mut name = answers.name;
    let mut left = answers.left;
    let mut bytes = answers.bytes;
    while left > 0 {
        let (rest, record) = match Record::parse(bytes) {
            Ok(read) => read,
            Err(_) => return None,
        };
        left -= 1;
        bytes = rest;
        match read_turn(&packet, &record, name, type_) {
            Turn::Found(found) => {
                let after = Answers {
                    message,
                    name,
                    type_,
                    left,
                    bytes,
                };
                return Some((found, after));
            }
            Turn::Sought(next) => name = next,
        }
    }
    None
}

/// What a record gives in a search for a name's addresses: an address, or the name to continue with.
#[derive(Clone, Copy)]
enum Turn<'a> {
    Found(AddressRecord),
    Sought(&'a [u8]),
}

// What the record gives.
fn read_turn<'a>(
    packet: &Packet<&'a [u8]>,
    record: &Record<'a>,
    name: &'a [u8],
    type_: Type,
) -> Turn<'a> {
    if !same_name(packet, record.name, name) {
        return Turn::Sought(name);
    }
    let ttl = record.ttl;
    match (record.data, type_) {
        (RecordData::A(address), Type::A) => Turn::Found(AddressRecord {
            address: Address::V4(address),
            ttl,
        }),
        (RecordData::Aaaa(address), Type::Aaaa) => Turn::Found(AddressRecord {
            address: Address::V6(address),
            ttl,
        }),
        (RecordData::Cname(alias_of), _) => Turn::Sought(alias_of),
        _ => Turn::Sought(name),
    }
}

/// Whether two names of a message have the same labels, letters of ASCII in either case, wherever their pointers lead.
pub fn same_name<'a>(packet: &Packet<&'a [u8]>, a: &'a [u8], b: &'a [u8]) -> bool {
    let mut left = packet.parse_name(a);
    let mut right = packet.parse_name(b);
    while let Some(item) = left.next() {
        let label = match item {
            Ok(label) => label,
            Err(_) => return false,
        };
        if !is_label(right.next(), label) {
            return false;
        }
    }
    is_end(right.next())
}

// Whether a walk returned this label, in either case.
fn is_label(answer: Option<Result<&[u8]>>, bytes: &[u8]) -> bool {
    match answer {
        Some(Ok(found)) => found.eq_ignore_ascii_case(bytes),
        Some(Err(_)) => false,
        None => false,
    }
}

// Whether a walk ended.
fn is_end(answer: Option<Result<&[u8]>>) -> bool {
    match answer {
        Some(Ok(_)) => false,
        Some(Err(_)) => false,
        None => true,
    }
}
