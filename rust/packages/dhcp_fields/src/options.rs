// Made from crates/dhcp_fields/src/options.rt by rust/erase.
//! The options of a packet (RFC 2132), as a list.

use crate::kinds::{Kinds, numbers_fit};
use crate::texts::{Escaped, OptionLabel};
use control_wire::dhcp_options::Parts;
use control_wire::dhcpv4::{DhcpOption, OptionValue};
use packet_fields::Form;
use packet_fields::entry::{
    cell, close_entry, close_list, first_cell, hidden_number, keyed_cell, open_entry, open_list,
};
use packet_fields::names::{Row, name_in};
use packet_fields::texts::Addresses;
use packet_fields::value::Seconds;
use rattle_std::io;
use rattle_std::io::Write;

// The greatest number of bytes of an option in several parts that is printed: no packet that fits a frame of Ethernet
// has one with more.
const MOST_JOINED: usize = 1_500;

const MESSAGE_NAMES: &[Row] = &[
    (1, "discover"),
    (2, "offer"),
    (3, "request"),
    (4, "decline"),
    (5, "ack"),
    (6, "nak"),
    (7, "release"),
    (8, "inform"),
];

/// Prints the options of a packet, in the order of their first parts, each joined from its parts (RFC 3396). Requires
/// at least 240 bytes.
pub(crate) fn show_options<W: Write>(output: &mut W, form: Form, octets: &[u8]) -> io::Result<()> {
    open_list(output, form, "options")?;
    show_entries(output, form, octets)?;
    close_list(output, form)
}

fn show_entries<W: Write>(output: &mut W, form: Form, octets: &[u8]) -> io::Result<()> {
    let mut left = Parts::of(octets);
    let mut is_first = true;
    while let Some(kind) = next_kind(&mut left) {
        show_option(output, form, is_first, octets, kind)?;
        is_first = false;
    }
    Ok(())
}

// The kind of the next part that is the first of its kind.
fn next_kind(left: &mut Parts<'_>) -> Option<u8> {
    while let Some(answer) = left.next() {
        match answer {
            Ok(part) if part.is_first => return Some(part.kind),
            _ => {}
        }
    }
    None
}

// Prints an option, joined from its parts.
fn show_option<W: Write>(
    output: &mut W,
    form: Form,
    is_first: bool,
    octets: &[u8],
    kind: u8,
) -> io::Result<()> {
    let mut buffer = [0; MOST_JOINED];
    match Parts::of(octets).option(kind, &mut buffer) {
        Ok(option) => show_value(output, form, is_first, option),
        Err(_) => show_long(output, form, is_first, kind),
    }
}

// Prints an option by its value.
fn show_value<W: Write>(
    output: &mut W,
    form: Form,
    is_first: bool,
    option: DhcpOption<'_>,
) -> io::Result<()> {
    let value = option.value();
    open_entry(output, form, is_first, "option", OptionLabel(option.kind))?;
    show_content(output, form, value)?;
    show_value_name(output, form, value)?;
    hidden_number(output, form, "type", option.kind as u64)?;
    close_entry(output, form)
}

// Prints the value of an option.
fn show_content<W: Write>(output: &mut W, form: Form, value: OptionValue<'_>) -> io::Result<()> {
    match value {
        OptionValue::Address(address) => first_cell(output, form, "value", address),
        OptionValue::Addresses(octets) => {
            first_cell(output, form, "value", Addresses { width: 4, octets })
        }
        OptionValue::Seconds(seconds) => first_cell(output, form, "value", Seconds(seconds)),
        OptionValue::Number(number) => first_cell(output, form, "value", number),
        OptionValue::Byte(byte) => first_cell(output, form, "value", byte),
        OptionValue::MessageType(message_type) => {
            first_cell(output, form, "value", u8::from(message_type))
        }
        OptionValue::Text(octets) => first_cell(output, form, "value", Escaped(octets)),
        OptionValue::Kinds(kinds) => {
            numbers_fit(kinds);
            first_cell(output, form, "value", Kinds(kinds))
        }
        OptionValue::Octets(octets) => first_cell(output, form, "value", octets),
    }
}

// Prints an option whose parts have too many bytes.
fn show_long<W: Write>(output: &mut W, form: Form, is_first: bool, kind: u8) -> io::Result<()> {
    let no_octets: &[u8] = &[];
    open_entry(output, form, is_first, "option", OptionLabel(kind))?;
    first_cell(output, form, "value", no_octets)?;
    keyed_cell(output, form, "refused", "more than 1500 bytes in parts")?;
    hidden_number(output, form, "type", kind as u64)?;
    close_entry(output, form)
}

// Prints the name of a type of message.
fn show_value_name<W: Write>(output: &mut W, form: Form, value: OptionValue<'_>) -> io::Result<()> {
    match value {
        OptionValue::MessageType(message_type) => {
            show_name(output, form, message_name(u8::from(message_type)))
        }
        _ => Ok(()),
    }
}

fn show_name<W: Write>(output: &mut W, form: Form, name: Option<&str>) -> io::Result<()> {
    match name {
        Some(name) => cell(output, form, "value_name", name),
        None => Ok(()),
    }
}

/// The name of a type of message; None where it has none.
pub fn message_name(number: u8) -> Option<&'static str> {
    name_in(MESSAGE_NAMES, number as u16)
}
