// Made from crates/dns_fields/src/message.rt by rust/erase.
//! Whole messages of DNS (RFC 1035 section 4.1), multicast DNS (RFC 6762 section 18), LLMNR (RFC 4795 section 2.1)
//! and the NetBIOS name service (RFC 1002 section 4.2).

use crate::edns::show_opt;
use crate::header::show_header;
use crate::kind::Kind;
use crate::nbns;
use crate::record::{
    is_blank, label_of, show_blank, show_no_name, show_question, show_record, show_why,
};
use crate::unread::Unread;
use crate::words::{Why, Word};
use control_wire::dns::Packet;
use control_wire::record::{Entries, Entry, Record, Refusal, Section};
use packet_fields::Form;
use packet_fields::entry::{close_entry, close_list, keyed_cell, open_entry, open_list};
use packet_fields::field::field;
use rattle_std::io;
use rattle_std::io::Write;

/// Prints a message of this kind: the fields of its header, and a list of its questions and records; of octets that are
/// fewer than 12 why they are no message, and the octets. A question or a record that can't be read is an entry that
/// says why, with what is known of it, and those behind it are read wherever the length of its data tells where they
/// begin. Returns the first refusal.
pub fn show_message<W: Write>(
    output: &mut W,
    form: Form,
    kind: Kind,
    octets: &[u8],
) -> io::Result<Option<Unread>> {
    let Ok(packet) = Packet::new_checked(octets) else {
        show_no_header(output, form, octets)?;
        return Ok(Some(Unread::Header));
    };
    show_header(output, form, kind, octets)?;
    show_list(output, form, kind, &packet)
}

// Prints octets that are too few for a header.
fn show_no_header<W: Write>(output: &mut W, form: Form, octets: &[u8]) -> io::Result<()> {
    field(output, form, "refused", Word(Why(Unread::Header)))?;
    field(output, form, "octets", octets)
}

// Prints the list of the questions and records.
fn show_list<W: Write>(
    output: &mut W,
    form: Form,
    kind: Kind,
    packet: &Packet<&[u8]>,
) -> io::Result<Option<Unread>> {
    open_list(output, form, "entries")?;
    let unread = show_entries(output, form, kind, packet)?;
    close_list(output, form)?;
    Ok(unread)
}

// Prints the questions and records, and returns the first refusal.
fn show_entries<W: Write>(
    output: &mut W,
    form: Form,
    kind: Kind,
    packet: &Packet<&[u8]>,
) -> io::Result<Option<Unread>> {
    let mut entries = Entries::new(packet);
    let mut unread = None;
    let mut is_first = true;
    loop {
        let entry = match entries.next() {
            Some(Ok(entry)) => entry,
            Some(Err(_)) => {
                let refusal = show_broken(output, form, is_first, &entries)?;
                return Ok(first_of(unread, refusal));
            }
            None => return Ok(unread),
        };
        let refusal = show_entry(output, form, is_first, kind, packet, &entry)?;
        unread = first_of(unread, refusal);
        is_first = false;
    }
}

// Of two refusals, the first.
fn first_of(first: Option<Unread>, later: Option<Unread>) -> Option<Unread> {
    match first {
        Some(refusal) => Some(refusal),
        None => later,
    }
}

// Prints that the next question or record does not begin, and why.
fn show_broken<W: Write>(
    output: &mut W,
    form: Form,
    is_first: bool,
    entries: &Entries<'_>,
) -> io::Result<Option<Unread>> {
    let Some((section, refusal)) = entries.refusal() else {
        return Ok(None);
    };
    show_broken_at(output, form, is_first, section, refusal, entries.rest())?;
    Ok(Some(Unread::Entry(section, refusal)))
}

fn show_broken_at<W: Write>(
    output: &mut W,
    form: Form,
    is_first: bool,
    section: Section,
    refusal: Refusal,
    octets: &[u8],
) -> io::Result<()> {
    open_entry(output, form, is_first, "section", label_of(section))?;
    show_no_name(output, form)?;
    keyed_cell(output, form, "octets", octets)?;
    show_why(output, form, Unread::Entry(section, refusal))?;
    close_entry(output, form)
}

fn show_entry<'a, W: Write>(
    output: &mut W,
    form: Form,
    is_first: bool,
    kind: Kind,
    packet: &Packet<&'a [u8]>,
    entry: &Entry<'a>,
) -> io::Result<Option<Unread>> {
    match entry {
        Entry::Question(question) => show_question(output, form, is_first, kind, packet, question),
        Entry::Record(section, record) => {
            show_any_record(output, form, is_first, kind, packet, *section, record)
        }
    }
}

fn show_any_record<'a, W: Write>(
    output: &mut W,
    form: Form,
    is_first: bool,
    kind: Kind,
    packet: &Packet<&'a [u8]>,
    section: Section,
    record: &Record<'a>,
) -> io::Result<Option<Unread>> {
    if kind.is_netbios() {
        return nbns::show_record(output, form, is_first, packet, section, record);
    }
    if let Some(edns) = record.edns() {
        return show_opt(output, form, is_first, kind, packet, section, record, &edns);
    }
    if is_blank(packet, section, record) {
        return show_blank(output, form, is_first, kind, packet, section, record);
    }
    show_record(output, form, is_first, kind, packet, section, record)
}
