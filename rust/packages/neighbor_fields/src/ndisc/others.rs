// Made from crates/neighbor_fields/src/ndisc/others.rt by rust/erase.
//! Options of neighbor discovery of other standards than RFC 4861: a nonce (RFC 3971 section 5.3.2), a route (RFC 4191
//! section 2.3), recursive DNS servers and a search list (RFC 8106 sections 5.1 and 5.2), a captive portal (RFC 8910
//! section 2.3) and the prefix of a NAT64 (RFC 8781 section 4).

use super::names::Names;
use super::options::{HEAD_LEN, Prefix, label_of, show_plain};
use super::preference_name;
use super::texts::Uri;
use control_wire::{ByteWriter, Octets};
use packet_fields::Form;
use packet_fields::entry::{close_entry, first_cell, hidden_number, keyed_cell, open_entry};
use packet_fields::texts::{Address, Addresses};
use packet_fields::value::{Seconds, Value};
use rattle_std::io;
use rattle_std::io::Write;

const NONCE: u8 = 14;

pub(super) const ROUTE_INFORMATION: u8 = 24;

pub(super) const RECURSIVE_DNS_SERVER: u8 = 25;

pub(super) const DNS_SEARCH_LIST: u8 = 31;

const CAPTIVE_PORTAL: u8 = 37;

pub(super) const PREF64: u8 = 38;

// The octets of an address.
const ADDRESS_LEN: usize = 16;

// The fields of these options.
pub(super) mod field {
    use control_wire::octets::Field;

    pub const ROUTE_LEN: Field = 2..3;

    pub const PREFERENCE: Field = 3..4;

    pub const LIFETIME: Field = 4..8;

    pub const BEHIND_LIFETIME: usize = 8;

    pub const SCALED_LIFETIME: Field = 2..4;

    pub const NAT64_PREFIX: usize = 4;
}

// Prints an option that is not refused, of a type that RFC 4861 has not.
pub(super) fn show_other<W: Write>(
    output: &mut W,
    form: Form,
    is_first: bool,
    option: &[u8],
) -> io::Result<()> {
    match option[0] {
        NONCE => show_nonce(output, form, is_first, option),
        ROUTE_INFORMATION => show_route(output, form, is_first, option),
        RECURSIVE_DNS_SERVER => show_servers(output, form, is_first, option),
        DNS_SEARCH_LIST => show_search_list(output, form, is_first, option),
        CAPTIVE_PORTAL => show_portal(output, form, is_first, option),
        PREF64 => show_nat64(output, form, is_first, option),
        _ => show_plain(output, form, is_first, option, None),
    }
}

// Prints a nonce.
fn show_nonce<W: Write>(
    output: &mut W,
    form: Form,
    is_first: bool,
    option: &[u8],
) -> io::Result<()> {
    let (_, nonce) = option.split_at(HEAD_LEN);
    show_value(output, form, is_first, NONCE, "nonce", nonce)
}

// Prints a captive portal.
fn show_portal<W: Write>(
    output: &mut W,
    form: Form,
    is_first: bool,
    option: &[u8],
) -> io::Result<()> {
    let (_, uri) = option.split_at(HEAD_LEN);
    show_value(output, form, is_first, CAPTIVE_PORTAL, "uri", Uri(uri))
}

// Prints recursive DNS servers.
fn show_servers<W: Write>(
    output: &mut W,
    form: Form,
    is_first: bool,
    option: &[u8],
) -> io::Result<()> {
    let lifetime = option.u32_at(field::LIFETIME);
    let (_, octets) = option.split_at(field::BEHIND_LIFETIME);
    let servers = Addresses {
        width: ADDRESS_LEN,
        octets,
    };
    show_for_a_time(
        output,
        form,
        is_first,
        RECURSIVE_DNS_SERVER,
        "servers",
        servers,
        lifetime,
    )
}

// Prints a search list.
fn show_search_list<W: Write>(
    output: &mut W,
    form: Form,
    is_first: bool,
    option: &[u8],
) -> io::Result<()> {
    let lifetime = option.u32_at(field::LIFETIME);
    let (_, names) = option.split_at(field::BEHIND_LIFETIME);
    show_for_a_time(
        output,
        form,
        is_first,
        DNS_SEARCH_LIST,
        "names",
        Names(names),
        lifetime,
    )
}

// Prints the prefix of a NAT64.
fn show_nat64<W: Write>(
    output: &mut W,
    form: Form,
    is_first: bool,
    option: &[u8],
) -> io::Result<()> {
    let scaled = option.u16_at(field::SCALED_LIFETIME);
    let (_, front) = option.split_at(field::NAT64_PREFIX);
    let len = length_bits(scaled % 8);
    let address = prefix_address(len, front);
    let prefix = Prefix {
        address: Address(&address),
        len,
    };
    let lifetime = 8 * (scaled / 8) as u32;
    show_for_a_time(output, form, is_first, PREF64, "prefix", prefix, lifetime)
}

// The bits of the prefix of a NAT64 by their code; a code above 4 is taken for 5.
fn length_bits(code: u16) -> u8 {
    match code {
        0 => 96,
        1 => 64,
        2 => 56,
        3 => 48,
        4 => 40,
        _ => 32,
    }
}

// Prints a route.
fn show_route<W: Write>(
    output: &mut W,
    form: Form,
    is_first: bool,
    option: &[u8],
) -> io::Result<()> {
    let (_, front) = option.split_at(field::BEHIND_LIFETIME);
    let len = option.u8_at(field::ROUTE_LEN);
    let address = prefix_address(len, front);
    let prefix = Prefix {
        address: Address(&address),
        len,
    };
    open_entry(
        output,
        form,
        is_first,
        "option",
        label_of(ROUTE_INFORMATION),
    )?;
    first_cell(output, form, "prefix", prefix)?;
    show_preference(output, form, option.u8_at(field::PREFERENCE) / 8 % 4)?;
    show_lifetime(output, form, option.u32_at(field::LIFETIME))?;
    hidden_number(output, form, "type", ROUTE_INFORMATION as u64)?;
    close_entry(output, form)
}

// Prints the preference of a route.
fn show_preference<W: Write>(output: &mut W, form: Form, preference: u8) -> io::Result<()> {
    keyed_cell(output, form, "preference", preference_name(preference))
}

// Prints a lifetime in seconds.
fn show_lifetime<W: Write>(output: &mut W, form: Form, seconds: u32) -> io::Result<()> {
    keyed_cell(output, form, "lifetime", Seconds(seconds))
}

// The address of a prefix that some octets begin, with zeros for what they leave out and for bits beyond its length.
fn prefix_address(len: u8, front: &[u8]) -> [u8; ADDRESS_LEN] {
    let mut octets = [0; ADDRESS_LEN];
    write_front(&mut octets, front);
    mask(len, &mut octets);
    octets
}

// Writes zeros in the place of all bits but the first, so many.
fn mask(len: u8, octets: &mut [u8]) {
    let mut left = len;
    for octet in octets.iter_mut() {
        *octet = kept_bits(left, *octet);
        left = left.saturating_sub(8);
    }
}

// The first bits of an octet, so many, with zeros in the place of the others.
fn kept_bits(len: u8, octet: u8) -> u8 {
    match len {
        0 => 0,
        1 => octet / 128 * 128,
        2 => octet / 64 * 64,
        3 => octet / 32 * 32,
        4 => octet / 16 * 16,
        5 => octet / 8 * 8,
        6 => octet / 4 * 4,
        7 => octet / 2 * 2,
        _ => octet,
    }
}

// Writes the first of the octets, as many as there is room for.
fn write_front(octets: &mut [u8], front: &[u8]) {
    let mut w = ByteWriter::new(octets);
    w.put_front(front);
}

// Prints an option by its type and its value.
fn show_value<V: Value, W: Write>(
    output: &mut W,
    form: Form,
    is_first: bool,
    type_: u8,
    key: &str,
    value: V,
) -> io::Result<()> {
    open_entry(output, form, is_first, "option", label_of(type_))?;
    first_cell(output, form, key, value)?;
    hidden_number(output, form, "type", type_ as u64)?;
    close_entry(output, form)
}

// Prints an option by its type, its value, and for how many seconds that is so.
fn show_for_a_time<V: Value, W: Write>(
    output: &mut W,
    form: Form,
    is_first: bool,
    type_: u8,
    key: &str,
    value: V,
    lifetime: u32,
) -> io::Result<()> {
    open_entry(output, form, is_first, "option", label_of(type_))?;
    first_cell(output, form, key, value)?;
    show_lifetime(output, form, lifetime)?;
    hidden_number(output, form, "type", type_ as u64)?;
    close_entry(output, form)
}
