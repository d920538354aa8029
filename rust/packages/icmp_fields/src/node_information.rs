// Made from crates/icmp_fields/src/node_information.rt by rust/erase.
//! Queries about a node and their answers (RFC 4620), messages of ICMPv6.

use crate::icmp::show_cut_entry;
use crate::refusal::Refusal;
use control_wire::Octets;
use packet_fields::Form;
use packet_fields::entry::{close_entry, first_cell, keyed_cell, open_entry};
use packet_fields::field::{field, named};
use packet_fields::names::Row;
use packet_fields::parts::{Part, show_parts};
use packet_fields::texts::{Address, Flags};
use packet_fields::value::Seconds;
use rattle_std::io;
use rattle_std::io::Write;

// The fields of messages, and of an address in an answer.
mod place {
    use control_wire::Field;

    pub const CODE: usize = 1;

    pub const QTYPE: Field = 4..6;

    pub const FLAGS: Field = 6..8;

    pub const NONCE: Field = 8..16;

    pub const DATA: usize = 16;

    pub const TTL: Field = 0..4;

    pub const ADDRESS: usize = 4;
}

// The types of queries about addresses.
const NODE_ADDRESSES: u16 = 3;

const IPV4_ADDRESSES: u16 = 4;

// The codes of queries about an address of IPv6 and about one of IPv4, and of an answer that tells something.
const SUBJECT_IPV6: u8 = 0;

const SUBJECT_IPV4: u8 = 2;

const SUCCESS: u8 = 0;

// The octets of addresses.
const IPV6_LEN: usize = 16;

const IPV4_LEN: usize = 4;

// Why a message is refused, where it is.
pub(crate) fn wrong_node(message: &[u8]) -> Option<Refusal> {
    if message.len() < place::DATA {
        return Some(Refusal::Length);
    }
    None
}

// Why an answer is refused, where it is.
pub(crate) fn wrong_reply(message: &[u8]) -> Option<Refusal> {
    if message.len() < place::DATA {
        return Some(Refusal::Length);
    }
    let (_, data) = message.split_at(place::DATA);
    if is_cut(message[place::CODE], message.u16_at(place::QTYPE), data) {
        return Some(Refusal::Cut);
    }
    None
}

// Whether the last address of an answer is cut.
fn is_cut(code: u8, qtype: u16, data: &[u8]) -> bool {
    match (code, qtype) {
        (SUCCESS, NODE_ADDRESSES) => data.len() % (place::ADDRESS + IPV6_LEN) > 0,
        (SUCCESS, IPV4_ADDRESSES) => data.len() % (place::ADDRESS + IPV4_LEN) > 0,
        _ => false,
    }
}

// Prints a query, and the node that it is about.
pub(crate) fn show_query<W: Write>(output: &mut W, form: Form, message: &[u8]) -> io::Result<()> {
    let (_, data) = message.split_at(place::DATA);
    show_fields(output, form, message)?;
    show_subject(output, form, message[place::CODE], data)
}

// Prints an answer.
pub(crate) fn show_reply<W: Write>(output: &mut W, form: Form, message: &[u8]) -> io::Result<()> {
    let (_, data) = message.split_at(place::DATA);
    let qtype = message.u16_at(place::QTYPE);
    show_fields(output, form, message)?;
    show_answer(output, form, message[place::CODE], qtype, data)
}

fn show_fields<W: Write>(output: &mut W, form: Form, message: &[u8]) -> io::Result<()> {
    let qtype = message.u16_at(place::QTYPE);
    let nonce = message.field(place::NONCE);
    named(output, form, "qtype", qtype as u64, qtype_name(qtype))?;
    show_flags(output, form, qtype, message.u16_at(place::FLAGS))?;
    field(output, form, "nonce", nonce)
}

// The name of a type of queries.
fn qtype_name(qtype: u16) -> Option<&'static str> {
    match qtype {
        0 => Some("noop"),
        2 => Some("node_name"),
        3 => Some("node_addresses"),
        4 => Some("ipv4_addresses"),
        _ => None,
    }
}

// Prints the flags of a query of this type, or of its answer.
fn show_flags<W: Write>(output: &mut W, form: Form, qtype: u16, bits: u16) -> io::Result<()> {
    match qtype {
        NODE_ADDRESSES | IPV4_ADDRESSES => show_address_flags(output, form, bits),
        _ => show_other_flags(output, form, bits),
    }
}

fn show_address_flags<W: Write>(output: &mut W, form: Form, bits: u16) -> io::Result<()> {
    let flags = Flags {
        rows: ADDRESS_FLAGS,
        bits,
    };
    field(output, form, "flags", flags)
}

fn show_other_flags<W: Write>(output: &mut W, form: Form, bits: u16) -> io::Result<()> {
    let flags = Flags {
        rows: OTHER_FLAGS,
        bits,
    };
    field(output, form, "flags", flags)
}

// Prints the node that a query of this code is about, by its data.
fn show_subject<W: Write>(output: &mut W, form: Form, code: u8, data: &[u8]) -> io::Result<()> {
    match code {
        SUBJECT_IPV6 => show_address_or_data(output, form, IPV6_LEN, data),
        SUBJECT_IPV4 => show_address_or_data(output, form, IPV4_LEN, data),
        _ => show_data(output, form, data),
    }
}

// Prints an address of so many octets, or other data.
fn show_address_or_data<W: Write>(
    output: &mut W,
    form: Form,
    width: usize,
    data: &[u8],
) -> io::Result<()> {
    if data.len() != width {
        return show_data(output, form, data);
    }
    show_address(output, form, data)
}

fn show_address<W: Write>(output: &mut W, form: Form, octets: &[u8]) -> io::Result<()> {
    field(output, form, "subject_addr", Address(octets))
}

// Prints data that are not told apart.
fn show_data<W: Write>(output: &mut W, form: Form, octets: &[u8]) -> io::Result<()> {
    field(output, form, "data", octets)
}

// Prints the answer to a query of this type, by its data.
fn show_answer<W: Write>(
    output: &mut W,
    form: Form,
    code: u8,
    qtype: u16,
    data: &[u8],
) -> io::Result<()> {
    match (code, qtype) {
        (SUCCESS, NODE_ADDRESSES) => {
            show_parts::<AddressesV6, W>(output, form, "addresses", data.len(), data)
        }
        (SUCCESS, IPV4_ADDRESSES) => {
            show_parts::<AddressesV4, W>(output, form, "addresses", data.len(), data)
        }
        _ => show_data(output, form, data),
    }
}

/// Addresses of IPv6, each after its time to live.
pub struct AddressesV6;

impl Part for AddressesV6 {
    fn len_of(octets: &[u8]) -> usize {
        entry_len(IPV6_LEN, octets)
    }

    fn show<W: Write>(output: &mut W, form: Form, is_first: bool, part: &[u8]) -> io::Result<()> {
        show_entry(output, form, is_first, IPV6_LEN, part)
    }
}

/// Addresses of IPv4, each after its time to live.
pub struct AddressesV4;

impl Part for AddressesV4 {
    fn len_of(octets: &[u8]) -> usize {
        entry_len(IPV4_LEN, octets)
    }

    fn show<W: Write>(output: &mut W, form: Form, is_first: bool, part: &[u8]) -> io::Result<()> {
        show_entry(output, form, is_first, IPV4_LEN, part)
    }
}

// The octets of the first address with its time to live, all where it is cut.
fn entry_len(width: usize, octets: &[u8]) -> usize {
    octets.len().min(place::ADDRESS + width)
}

// Prints an address.
fn show_entry<W: Write>(
    output: &mut W,
    form: Form,
    is_first: bool,
    width: usize,
    entry: &[u8],
) -> io::Result<()> {
    if entry.len() < place::ADDRESS + width {
        let why = "fewer bytes than an address and its time to live";
        return show_cut_entry(output, form, is_first, "address", why, entry);
    }
    show_whole(output, form, is_first, width, entry)
}

fn show_whole<W: Write>(
    output: &mut W,
    form: Form,
    is_first: bool,
    width: usize,
    entry: &[u8],
) -> io::Result<()> {
    let address = Address(entry.range(place::ADDRESS, place::ADDRESS + width));
    let ttl = Seconds(entry.u32_at(place::TTL));
    open_entry(output, form, is_first, "entry", "address")?;
    first_cell(output, form, "addr", address)?;
    keyed_cell(output, form, "ttl", ttl)?;
    close_entry(output, form)
}

const ADDRESS_FLAGS: &[Row] = &[
    (0x8000, "0x8000"),
    (0x4000, "0x4000"),
    (0x2000, "0x2000"),
    (0x1000, "0x1000"),
    (0x0800, "0x0800"),
    (0x0400, "0x0400"),
    (0x0200, "0x0200"),
    (0x0100, "0x0100"),
    (0x0080, "0x0080"),
    (0x0040, "0x0040"),
    (0x0020, "global_scope"),
    (0x0010, "site_local"),
    (0x0008, "link_local"),
    (0x0004, "compatible"),
    (0x0002, "all"),
    (0x0001, "truncated"),
];

const OTHER_FLAGS: &[Row] = &[
    (0x8000, "0x8000"),
    (0x4000, "0x4000"),
    (0x2000, "0x2000"),
    (0x1000, "0x1000"),
    (0x0800, "0x0800"),
    (0x0400, "0x0400"),
    (0x0200, "0x0200"),
    (0x0100, "0x0100"),
    (0x0080, "0x0080"),
    (0x0040, "0x0040"),
    (0x0020, "0x0020"),
    (0x0010, "0x0010"),
    (0x0008, "0x0008"),
    (0x0004, "0x0004"),
    (0x0002, "0x0002"),
    (0x0001, "0x0001"),
];
