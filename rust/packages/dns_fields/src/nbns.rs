// Made from crates/dns_fields/src/nbns.rt by rust/erase.
//! Records of the NetBIOS name service (RFC 1002 section 4.2), an entry each.

use crate::edns::show_cut;
use crate::header::{opcode_of, word_of};
use crate::kind::{Kind, NameOf, TypeOf};
use crate::node::{Part, Parts};
use crate::record::{label_of, show_refused_record};
use crate::unread::Unread;
use crate::words::{Class, Data, Word};
use control_wire::dns::Packet;
use control_wire::inside::octets::octets_of;
use control_wire::record::{DataText, Name, Record, Section, TextRefusal};
use packet_fields::Form;
use packet_fields::entry::{cell, close_entry, first_cell, keyed_cell, open_entry};
use rattle_std::io;
use rattle_std::io::Write;

// The types of records of addresses and of names.
const NB: u16 = 32;

const NBSTAT: u16 = 33;

// The kind of query of a message that tells to wait; its data are the flags of a request (RFC 1002 section 4.2.16).
const WACK: u16 = 7;

/// How the data of a record are laid out.
#[derive(Debug, PartialEq, Eq, Clone, Copy)]
pub enum Layout {
    /// Addresses, each after its flags (RFC 1002 section 4.2.1.3).
    Addresses,
    /// A number of names with their flags, and statistics (RFC 1002 section 4.2.18).
    Names,
    /// Any octets.
    Octets,
}

/// Prints a record. Requires at least 12 bytes.
pub(crate) fn show_record<'a, W: Write>(
    output: &mut W,
    form: Form,
    is_first: bool,
    packet: &Packet<&'a [u8]>,
    section: Section,
    record: &Record<'a>,
) -> io::Result<Option<Unread>> {
    match Name::read_or_refusal(packet, record.name) {
        Ok(name) => {
            let layout = layout_of(word_of(octets_of(packet)), record);
            show_read(output, form, is_first, section, record, &name, layout)?;
            Ok(unread_data(layout, record.data))
        }
        Err(refusal) => {
            let unread = Unread::Record(TextRefusal::Owner(refusal));
            show_refused_record(
                output,
                form,
                is_first,
                Kind::Nbns,
                packet,
                section,
                record,
                unread,
            )?;
            Ok(Some(unread))
        }
    }
}

/// How the data of a record are laid out, by the word of flags of its message.
pub fn layout_of(word: u16, record: &Record<'_>) -> Layout {
    if opcode_of(word) == WACK {
        return Layout::Octets;
    }
    match u16::from(record.type_) {
        NB => Layout::Addresses,
        NBSTAT => Layout::Names,
        _ => Layout::Octets,
    }
}

// Prints a record whose name is read.
fn show_read<W: Write>(
    output: &mut W,
    form: Form,
    is_first: bool,
    section: Section,
    record: &Record<'_>,
    name: &Name,
    layout: Layout,
) -> io::Result<()> {
    open_entry(output, form, is_first, "section", label_of(section))?;
    first_cell(output, form, "name", Word(NameOf(Kind::Nbns, name)))?;
    cell(output, form, "ttl", record.ttl)?;
    cell(output, form, "class", Word(Class(record.class)))?;
    cell(output, form, "type", Word(TypeOf(Kind::Nbns, record.type_)))?;
    show_data(output, form, layout, record.data)?;
    show_cut(output, form, unread_data(layout, record.data), record.data)?;
    close_entry(output, form)
}

// Prints data.
fn show_data<W: Write>(output: &mut W, form: Form, layout: Layout, data: &[u8]) -> io::Result<()> {
    match layout {
        Layout::Addresses => {
            let addresses = Parts {
                part: Part::Address,
                octets: data,
            };
            cell(output, form, "data", addresses)
        }
        Layout::Names => show_names(output, form, data),
        Layout::Octets => cell(output, form, "data", Word(Data(&DataText::Other(data)))),
    }
}

// Prints names, and the statistics behind them.
fn show_names<W: Write>(output: &mut W, form: Form, data: &[u8]) -> io::Result<()> {
    let (names, statistics) = split_names(data);
    let names = Parts {
        part: Part::Name,
        octets: names,
    };
    cell(output, form, "data", names)?;
    keyed_cell(output, form, "statistics", statistics)
}

/// The octets of the names, as many as there are of those that the first octet counts, and those behind them.
pub fn split_names(data: &[u8]) -> (&[u8], &[u8]) {
    let [_, rest @ ..] = data else {
        return (&[], &[]);
    };
    rest.split_at(names_len(data).min(rest.len()))
}

// The octets of the names that are counted.
fn names_len(data: &[u8]) -> usize {
    match data {
        [count, ..] => Part::Name.width() * *count as usize,
        [] => 0,
    }
}

// What of data is cut.
fn unread_data(layout: Layout, data: &[u8]) -> Option<Unread> {
    match layout {
        Layout::Addresses if data.len() % Part::Address.width() != 0 => Some(Unread::Addresses),
        Layout::Names if data.len() <= names_len(data) => Some(Unread::Names),
        _ => None,
    }
}
