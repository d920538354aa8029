// Made from crates/neighbor_fields/src/records.rt by rust/erase.
//! Records and sources of multicast groups (RFC 3810 section 5, RFC 3376 section 4).

use crate::lack::Lack;
use crate::messages::{show_additional, show_lack};
use control_wire::Octets;
use packet_fields::Form;
use packet_fields::entries::show_octets;
use packet_fields::entry::{close_entry, first_cell, hidden_number, keyed_cell, open_entry};
use packet_fields::field::field;
use packet_fields::label::Label;
use packet_fields::names::{Row, name_in};
use packet_fields::parts::{Part, behind_parts, show_parts};
use packet_fields::texts::{Address, Addresses};
use packet_fields::value::Seconds;
use rattle_std::io;
use rattle_std::io::Write;

// The octets before the group of a record.
const HEAD_LEN: usize = 4;

// The octets of a word of auxiliary data.
const WORD: usize = 4;

// The fields of a record.
mod place {
    use control_wire::octets::Field;

    pub const AUX_DATA_LEN: Field = 1..2;

    pub const NUM_SRCS: Field = 2..4;
}

// Prints `count` records with addresses of IPv6 and what stands behind them, and returns whether fewer are whole.
pub(crate) fn show_records_v6<W: Write>(
    output: &mut W,
    form: Form,
    count: u16,
    octets: &[u8],
) -> io::Result<Option<Lack>> {
    let lack = records_lack(16, count, octets);
    show_records::<RecordsV6, W>(output, form, count, lack, octets)?;
    Ok(lack)
}

// The same with addresses of IPv4.
pub(crate) fn show_records_v4<W: Write>(
    output: &mut W,
    form: Form,
    count: u16,
    octets: &[u8],
) -> io::Result<Option<Lack>> {
    let lack = records_lack(4, count, octets);
    show_records::<RecordsV4, W>(output, form, count, lack, octets)?;
    Ok(lack)
}

// Prints `count` records of a kind, that fewer are whole, where that is so, and what stands behind them.
fn show_records<P: Part, W: Write>(
    output: &mut W,
    form: Form,
    count: u16,
    lack: Option<Lack>,
    octets: &[u8],
) -> io::Result<()> {
    show_parts::<P, W>(output, form, "records", count as usize, octets)?;
    show_lack(output, form, lack)?;
    show_additional(output, form, behind_parts::<P>(count as usize, octets))
}

// Whether fewer than `count` records are whole.
fn records_lack(width: usize, count: u16, octets: &[u8]) -> Option<Lack> {
    let mut rest = octets;
    let mut left = count;
    while left > 0 {
        if is_cut(width, rest) {
            return Some(Lack::Records);
        }
        let (_, others) = rest.split_at(counted_len(width, rest));
        rest = others;
        left -= 1;
    }
    None
}

// Whether octets end before the record at their front does.
fn is_cut(width: usize, octets: &[u8]) -> bool {
    octets.len() < HEAD_LEN || octets.len() < counted_len(width, octets)
}

/// Records with addresses of IPv6.
pub struct RecordsV6;

impl Part for RecordsV6 {
    fn len_of(octets: &[u8]) -> usize {
        record_len(16, octets)
    }

    fn show<W: Write>(output: &mut W, form: Form, is_first: bool, part: &[u8]) -> io::Result<()> {
        show_record(output, form, is_first, 16, part)
    }
}

/// Records with addresses of IPv4.
pub struct RecordsV4;

impl Part for RecordsV4 {
    fn len_of(octets: &[u8]) -> usize {
        record_len(4, octets)
    }

    fn show<W: Write>(output: &mut W, form: Form, is_first: bool, part: &[u8]) -> io::Result<()> {
        show_record(output, form, is_first, 4, part)
    }
}

/// The octets of the first record, all where it is cut. Requires an octet, and addresses of at most 16.
pub fn record_len(width: usize, octets: &[u8]) -> usize {
    if octets.len() < HEAD_LEN {
        return octets.len();
    }
    octets.len().min(counted_len(width, octets))
}

// Where the sources of a record end.
fn sources_end(width: usize, record: &[u8]) -> usize {
    HEAD_LEN + width + width * record.u16_at(place::NUM_SRCS) as usize
}

/// The octets that a record counts. Requires at least 4 octets, and addresses of at most 16.
pub fn counted_len(width: usize, record: &[u8]) -> usize {
    sources_end(width, record) + WORD * record.u8_at(place::AUX_DATA_LEN) as usize
}

// Prints a record.
fn show_record<W: Write>(
    output: &mut W,
    form: Form,
    is_first: bool,
    width: usize,
    record: &[u8],
) -> io::Result<()> {
    if record.len() < HEAD_LEN || record.len() != counted_len(width, record) {
        return show_cut_record(output, form, is_first, record);
    }
    show_whole(output, form, is_first, width, record)
}

// Prints a record that is cut.
fn show_cut_record<W: Write>(
    output: &mut W,
    form: Form,
    is_first: bool,
    record: &[u8],
) -> io::Result<()> {
    let (_, data) = record.split_at(1);
    let why = Some("fewer bytes than the record counts");
    show_octets(
        output,
        form,
        is_first,
        "record",
        label_of(record[0]),
        data,
        why,
    )
}

// Prints a record that is whole.
fn show_whole<W: Write>(
    output: &mut W,
    form: Form,
    is_first: bool,
    width: usize,
    record: &[u8],
) -> io::Result<()> {
    let group_end = HEAD_LEN + width;
    let sources_end = sources_end(width, record);
    let group = Address(record.range(HEAD_LEN, group_end));
    let octets = record.range(group_end, sources_end);
    let (_, aux_data) = record.split_at(sources_end);
    open_entry(output, form, is_first, "record", label_of(record[0]))?;
    first_cell(output, form, "group_addr", group)?;
    keyed_cell(output, form, "sources", Addresses { width, octets })?;
    show_aux_data(output, form, aux_data)?;
    hidden_number(output, form, "type", record[0] as u64)?;
    close_entry(output, form)
}

// Prints auxiliary data, where there is any.
fn show_aux_data<W: Write>(output: &mut W, form: Form, data: &[u8]) -> io::Result<()> {
    if data.is_empty() {
        return Ok(());
    }
    keyed_cell(output, form, "aux_data", data)
}

// Prints the whole ones of `count` sources of a query and what stands behind them, and returns whether they are fewer.
pub(crate) fn show_sources<W: Write>(
    output: &mut W,
    form: Form,
    width: usize,
    count: u16,
    octets: &[u8],
) -> io::Result<Option<Lack>> {
    let lack = sources_lack(width, count, octets);
    let (octets, behind) = octets.split_at(whole_len(width, count, octets));
    field(output, form, "sources", Addresses { width, octets })?;
    show_lack(output, form, lack)?;
    show_additional(output, form, behind)?;
    Ok(lack)
}

// Whether fewer than `count` sources are whole.
fn sources_lack(width: usize, count: u16, octets: &[u8]) -> Option<Lack> {
    if octets.len() < width * count as usize {
        return Some(Lack::Sources);
    }
    None
}

// The octets of those of `count` sources that are whole.
fn whole_len(width: usize, count: u16, octets: &[u8]) -> usize {
    let counted = width * count as usize;
    if octets.len() < counted {
        return octets.len() - octets.len() % width;
    }
    counted
}

// Prints what a query says of its querier.
pub(crate) fn show_querier<W: Write>(
    output: &mut W,
    form: Form,
    flags: u8,
    code: u8,
) -> io::Result<()> {
    field(output, form, "s_flag", flags / 8 % 2 == 1)?;
    field(output, form, "qrv", flags % 8)?;
    field(output, form, "qqic", code)?;
    field(
        output,
        form,
        "querier_query_interval",
        Seconds(code_number(code)),
    )
}

// The number that a code stands for (RFC 3376 sections 4.1.1 and 4.1.7).
pub(crate) fn code_number(code: u8) -> u32 {
    if code < 128 {
        return code as u32;
    }
    (16 + (code % 16) as u32) * scale(code / 16 % 8)
}

// The number that a code of 16 bits stands for (RFC 3810 section 5.1.3).
pub(crate) fn long_code_number(code: u16) -> u32 {
    if code < 32768 {
        return code as u32;
    }
    (4096 + (code % 4096) as u32) * scale((code / 4096 % 8) as u8)
}

// Two to a power of three more.
fn scale(exponent: u8) -> u32 {
    match exponent {
        0 => 8,
        1 => 16,
        2 => 32,
        3 => 64,
        4 => 128,
        5 => 256,
        6 => 512,
        _ => 1024,
    }
}

/// What a record is called.
pub fn label_of(type_: u8) -> Label<'static> {
    Label {
        name: name_in(RECORDS, type_ as u16),
        kind: "record",
        number: type_,
    }
}

// The types of records (RFC 3810 section 5.2.12, RFC 3376 section 4.2.12).
const RECORDS: &[Row] = &[
    (1, "mode_is_include"),
    (2, "mode_is_exclude"),
    (3, "change_to_include_mode"),
    (4, "change_to_exclude_mode"),
    (5, "allow_new_sources"),
    (6, "block_old_sources"),
];
