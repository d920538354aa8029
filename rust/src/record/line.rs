// Made from crates/record_wire/src/line.rt by rust/erase.
//! Lines of questions and records as a zone file has them (RFC 1035 section 5.1), put into a formatter or into another
//! output.

use crate::dns_wire::dns::{Packet, Type};
use crate::record::classes::put_class;
use crate::record::name::name_text::NameText;
use crate::record::name::refusal::NameRefusal;
use crate::record::rdata::fields::Fields;
use crate::record::rdata::{Authority, RData};
use crate::record::text::words::{put_generic, put_strings};
use crate::record::types::put_type;
use crate::wirebase::text::{Sink, put_number, put_v4, put_v6};
use core::result;

/// Puts the line of a question.
pub(crate) fn put_asked<O, S: Sink<O>>(
    output: &mut O,
    name: &NameText,
    class: u16,
    type_: Type,
) -> result::Result<(), S::Error> {
    name.put::<O, S>(output)?;
    put_class_and_type::<O, S>(output, class, type_)
}

// Puts a class and a type, each after a space.
#[inline(never)]
fn put_class_and_type<O, S: Sink<O>>(
    output: &mut O,
    class: u16,
    type_: Type,
) -> result::Result<(), S::Error> {
    S::put_str(output, " ")?;
    put_class::<O, S>(output, class)?;
    S::put_str(output, " ")?;
    put_type::<O, S>(output, type_)
}

/// The line of a record up to its data.
#[derive(Clone, Copy)]
pub(crate) struct Line<'a> {
    pub(crate) owner: &'a NameText,
    pub(crate) ttl: u32,
    pub(crate) class: u16,
    pub(crate) type_: Type,
}

// Puts the line of a record up to its data, where there is one.
fn put_front<O, S: Sink<O>>(
    output: &mut O,
    line: Option<&Line<'_>>,
) -> result::Result<(), S::Error> {
    match line {
        Some(line) => put_line::<O, S>(output, line),
        None => Ok(()),
    }
}

fn put_line<O, S: Sink<O>>(output: &mut O, line: &Line<'_>) -> result::Result<(), S::Error> {
    line.owner.put::<O, S>(output)?;
    put_word::<O, S>(output, line.ttl)?;
    put_class_and_type::<O, S>(output, line.class, line.type_)?;
    S::put_str(output, " ")
}

/// Puts the line of a record up to its data, where there is one, and the data; where a name in the data can't be read
/// it puts nothing, and returns why the first such is refused.
pub(crate) fn put_data<'a, O, S: Sink<O>>(
    output: &mut O,
    message: &'a [u8],
    line: Option<&Line<'_>>,
    data: &RData<'a>,
) -> result::Result<Option<NameRefusal>, S::Error> {
    match *data {
        RData::Name(name) => put_named::<O, S>(output, message, line, &[], name),
        RData::Mx {
            preference,
            exchange,
        } => put_named::<O, S>(output, message, line, &[preference], exchange),
        RData::Srv {
            priority,
            weight,
            port,
            target,
        } => put_named::<O, S>(output, message, line, &[priority, weight, port], target),
        RData::Soa(soa) => put_authority::<O, S>(output, message, line, &soa),
        RData::Fields(read) => put_fields::<O, S>(output, message, line, &read),
        RData::A(address) => {
            put_front::<O, S>(output, line)?;
            put_v4::<O, S>(output, address, None)?;
            Ok(None)
        }
        RData::Aaaa(address) => {
            put_front::<O, S>(output, line)?;
            put_v6::<O, S>(output, address, None)?;
            Ok(None)
        }
        RData::Txt(octets) => {
            put_front::<O, S>(output, line)?;
            put_strings::<O, S>(output, octets)?;
            Ok(None)
        }
        RData::Other(octets) => {
            put_front::<O, S>(output, line)?;
            put_generic::<O, S>(output, octets)?;
            Ok(None)
        }
    }
}

// Puts data of numbers and then a name.
fn put_named<'a, O, S: Sink<O>>(
    output: &mut O,
    message: &'a [u8],
    line: Option<&Line<'_>>,
    numbers: &[u16],
    octets: &'a [u8],
) -> result::Result<Option<NameRefusal>, S::Error> {
    let mut name = NameText::new();
    if let Err(refusal) = name.read(message, octets) {
        return Ok(Some(refusal));
    }
    put_front::<O, S>(output, line)?;
    put_numbers::<O, S>(output, numbers)?;
    name.put::<O, S>(output)?;
    Ok(None)
}

// Puts numbers, each before a space.
fn put_numbers<O, S: Sink<O>>(output: &mut O, numbers: &[u16]) -> result::Result<(), S::Error> {
    for number in numbers {
        put_number::<O, S>(output, u64::from(*number))?;
        S::put_str(output, " ")?;
    }
    Ok(())
}

/// Puts the line of a record up to its data, where there is one, and two names and five numbers, as [`put_data`] does.
pub(crate) fn put_authority<'a, O, S: Sink<O>>(
    output: &mut O,
    message: &'a [u8],
    line: Option<&Line<'_>>,
    soa: &Authority<'a>,
) -> result::Result<Option<NameRefusal>, S::Error> {
    let mut primary = NameText::new();
    if let Err(refusal) = primary.read(message, soa.primary) {
        return Ok(Some(refusal));
    }
    let mut mailbox = NameText::new();
    if let Err(refusal) = mailbox.read(message, soa.mailbox) {
        return Ok(Some(refusal));
    }
    put_front::<O, S>(output, line)?;
    primary.put::<O, S>(output)?;
    S::put_str(output, " ")?;
    mailbox.put::<O, S>(output)?;
    put_word::<O, S>(output, soa.serial)?;
    put_word::<O, S>(output, soa.refresh)?;
    put_word::<O, S>(output, soa.retry)?;
    put_word::<O, S>(output, soa.expire)?;
    put_word::<O, S>(output, soa.minimum)?;
    Ok(None)
}

// Puts a number after a space.
#[inline(never)]
fn put_word<O, S: Sink<O>>(output: &mut O, number: u32) -> result::Result<(), S::Error> {
    S::put_str(output, " ")?;
    put_number::<O, S>(output, u64::from(number))
}

// Puts fields, which are read as a value first: these types are rare.
fn put_fields<'a, O, S: Sink<O>>(
    output: &mut O,
    message: &'a [u8],
    line: Option<&Line<'_>>,
    read: &Fields<'a>,
) -> result::Result<Option<NameRefusal>, S::Error> {
    match read.text(&Packet::new_unchecked(message)) {
        Ok(text) => {
            put_front::<O, S>(output, line)?;
            text.put::<O, S>(output)?;
            Ok(None)
        }
        Err(refusal) => Ok(Some(refusal)),
    }
}
