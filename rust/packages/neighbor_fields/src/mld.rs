// Made from crates/neighbor_fields/src/mld.rt by rust/erase.
//! Messages of multicast listener discovery, versions 1 and 2 (RFC 2710 section 3, RFC 3810 section 5).

use crate::lack::Lack;
use crate::messages::{HEAD_LEN, millis, show_additional, show_cut, show_head};
use crate::records::{long_code_number, show_querier, show_records_v6, show_sources};
use control_wire::Octets;
use packet_fields::Form;
use packet_fields::field::field;
use packet_fields::texts::Address;
use rattle_std::io;
use rattle_std::io::Write;

const QUERY: u8 = 130;

const REPORT: u8 = 131;

const DONE: u8 = 132;

const REPORT_V2: u8 = 143;

// The fields of messages.
mod place {
    use control_wire::octets::Field;

    pub const MAX_RESP_CODE: Field = 4..6;

    pub const MCAST_ADDR: Field = 8..24;

    pub const VERSION_1_LEN: usize = 24;

    pub const SQRV: Field = 24..25;

    pub const QQIC: Field = 25..26;

    pub const NUM_SRCS: Field = 26..28;

    pub const SOURCES: usize = 28;

    pub const NUM_RECORDS: Field = 6..8;

    pub const RECORDS: usize = 8;
}

/// Prints a message of multicast listener discovery, by its octets from the type on. A query of 24 octets is one of
/// version 1 (RFC 3810 section 8.1). What is cut says so: a message within its fields, with the octets that are there;
/// its sources; a record, with its octets. Of a message of another type the octets are printed. Returns of what a
/// message has less than it takes or counts.
pub fn show_mld<W: Write>(output: &mut W, form: Form, message: &[u8]) -> io::Result<Option<Lack>> {
    if message.len() < HEAD_LEN {
        show_cut(output, form, message)?;
        return Ok(Some(Lack::Fields));
    }
    show_head(output, form, message)?;
    show_body(output, form, message)
}

// Prints what follows the checksum.
fn show_body<W: Write>(output: &mut W, form: Form, message: &[u8]) -> io::Result<Option<Lack>> {
    let (_, octets) = message.split_at(HEAD_LEN);
    match message[0] {
        QUERY => show_any_query(output, form, message),
        REPORT => show_old(output, form, message),
        DONE => show_old(output, form, message),
        REPORT_V2 => show_report(output, form, message),
        _ => {
            field(output, form, "data", octets)?;
            Ok(None)
        }
    }
}

// Prints a query of version 1 or 2.
fn show_any_query<W: Write>(
    output: &mut W,
    form: Form,
    message: &[u8],
) -> io::Result<Option<Lack>> {
    if message.len() == place::VERSION_1_LEN {
        show_version_1(output, form, message)?;
        return Ok(None);
    }
    if message.len() < place::SOURCES {
        let (_, octets) = message.split_at(HEAD_LEN);
        show_cut(output, form, octets)?;
        return Ok(Some(Lack::Fields));
    }
    show_query(output, form, message)
}

// Prints a report or done of version 1.
fn show_old<W: Write>(output: &mut W, form: Form, message: &[u8]) -> io::Result<Option<Lack>> {
    if message.len() < place::VERSION_1_LEN {
        let (_, octets) = message.split_at(HEAD_LEN);
        show_cut(output, form, octets)?;
        return Ok(Some(Lack::Fields));
    }
    show_version_1(output, form, message)?;
    Ok(None)
}

// Prints the fields of version 1.
fn show_version_1<W: Write>(output: &mut W, form: Form, message: &[u8]) -> io::Result<()> {
    let delay = millis(message.u16_at(place::MAX_RESP_CODE) as u32);
    let (_, additional) = message.split_at(place::VERSION_1_LEN);
    field(output, form, "version", 1u8)?;
    field(output, form, "max_resp_delay", delay)?;
    show_group(output, form, message)?;
    show_additional(output, form, additional)
}

// Prints a query of version 2.
fn show_query<W: Write>(output: &mut W, form: Form, message: &[u8]) -> io::Result<Option<Lack>> {
    let count = message.u16_at(place::NUM_SRCS);
    let (_, sources) = message.split_at(place::SOURCES);
    show_query_front(output, form, message)?;
    show_querier(
        output,
        form,
        message.u8_at(place::SQRV),
        message.u8_at(place::QQIC),
    )?;
    show_sources(output, form, 16, count, sources)
}

// Prints a query of version 2 up to its group.
fn show_query_front<W: Write>(output: &mut W, form: Form, message: &[u8]) -> io::Result<()> {
    let code = message.u16_at(place::MAX_RESP_CODE);
    field(output, form, "version", 2u8)?;
    field(output, form, "max_resp_code", code)?;
    field(
        output,
        form,
        "max_resp_delay",
        millis(long_code_number(code)),
    )?;
    show_group(output, form, message)
}

// Prints the multicast address.
fn show_group<W: Write>(output: &mut W, form: Form, message: &[u8]) -> io::Result<()> {
    let addr = message.field(place::MCAST_ADDR);
    field(output, form, "mcast_addr", Address(addr))
}

// Prints a report of version 2, or the octets of one that is cut.
fn show_report<W: Write>(output: &mut W, form: Form, message: &[u8]) -> io::Result<Option<Lack>> {
    if message.len() < place::RECORDS {
        let (_, octets) = message.split_at(HEAD_LEN);
        show_cut(output, form, octets)?;
        return Ok(Some(Lack::Fields));
    }
    show_counted(output, form, message)
}

// Prints a report of version 2.
fn show_counted<W: Write>(output: &mut W, form: Form, message: &[u8]) -> io::Result<Option<Lack>> {
    let count = message.u16_at(place::NUM_RECORDS);
    let (_, records) = message.split_at(place::RECORDS);
    field(output, form, "version", 2u8)?;
    show_records_v6(output, form, count, records)
}
