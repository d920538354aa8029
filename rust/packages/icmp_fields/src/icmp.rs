// Made from crates/icmp_fields/src/icmp.rt by rust/erase.
//! What messages of ICMPv4 and of ICMPv6 have in common.

use crate::refusal::Refusal;
use control_wire::{Field, Octets};
use packet_fields::Form;
use packet_fields::entry::{close_entry, first_cell, keyed_cell, open_entry};
use packet_fields::field::{field, named};
use rattle_std::io;
use rattle_std::io::Write;

// The fields that every message has, and where they end; their picture is in the specs of `wirebase`.
pub(crate) const TYPE: Field = 0..1;

pub(crate) const CODE: Field = 1..2;

pub(crate) const CHECKSUM_END: usize = 4;

// What queries and their answers have next, and where the fields of every message that is told by them end.
const IDENT: Field = 4..6;

const SEQ_NO: Field = 6..8;

pub(crate) const HEADER_END: usize = 8;

// Prints a type and a code, each with its name where it has one.
pub(crate) fn show_named_head<W: Write>(
    output: &mut W,
    form: Form,
    type_: u8,
    type_name: Option<&str>,
    code: u8,
    code_name: Option<&str>,
) -> io::Result<()> {
    named(output, form, "type", u64::from(type_), type_name)?;
    named(output, form, "code", u64::from(code), code_name)
}

// Prints what an echo holds behind its checksum.
pub(crate) fn show_echo<W: Write>(
    output: &mut W,
    form: Form,
    ident: u16,
    seq_no: u16,
    data: &[u8],
) -> io::Result<()> {
    field(output, form, "ident", ident)?;
    field(output, form, "seq_no", seq_no)?;
    field(output, form, "data", data)
}

// Prints octets that are not told apart.
pub(crate) fn show_rest<W: Write>(output: &mut W, form: Form, octets: &[u8]) -> io::Result<()> {
    field(output, form, "rest", octets)
}

// Prints the identifier and the sequence number of a message, which its answer has too.
pub(crate) fn show_ids<W: Write>(output: &mut W, form: Form, message: &[u8]) -> io::Result<()> {
    field(output, form, "ident", message.u16_at(IDENT))?;
    field(output, form, "seq_no", message.u16_at(SEQ_NO))
}

// Prints the octets behind all fields, where there are any.
pub(crate) fn show_additional<W: Write>(
    output: &mut W,
    form: Form,
    octets: &[u8],
) -> io::Result<()> {
    if octets.is_empty() {
        return Ok(());
    }
    field(output, form, "additional_data", octets)
}

// Prints the octets behind the checksum of a message that is not told apart.
pub(crate) fn show_behind_checksum<W: Write>(
    output: &mut W,
    form: Form,
    message: &[u8],
) -> io::Result<()> {
    let (_, rest) = message.split_at(CHECKSUM_END);
    show_rest(output, form, rest)
}

// Prints the octets behind the checksum, and why they are not told apart.
pub(crate) fn show_refused<W: Write>(
    output: &mut W,
    form: Form,
    message: &[u8],
    why: Refusal,
) -> io::Result<()> {
    show_behind_checksum(output, form, message)?;
    field(output, form, "refused", why)
}

// Prints an entry of this kind that is cut, by its octets, and why it can't be read.
pub(crate) fn show_cut_entry<W: Write>(
    output: &mut W,
    form: Form,
    is_first: bool,
    label: &str,
    why: &str,
    octets: &[u8],
) -> io::Result<()> {
    open_entry(output, form, is_first, "entry", label)?;
    first_cell(output, form, "data", octets)?;
    keyed_cell(output, form, "refused", why)?;
    close_entry(output, form)
}
