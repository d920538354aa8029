// Made from crates/neighbor_fields/src/ndisc.rt by rust/erase.
//! Messages of neighbor discovery (RFC 4861 section 4).

mod names;
pub mod options;
mod others;
mod reasons;
mod texts;

use crate::messages::{HEAD_LEN, millis, show_cut, show_head};
use control_wire::Octets;
use options::show_options;
use packet_fields::Form;
use packet_fields::field::{field, named};
use packet_fields::names::{Row, name_in};
use packet_fields::texts::{Address, Flags};
use packet_fields::value::Seconds;
use rattle_std::io;
use rattle_std::io::Write;

const ROUTER_ADVERTISEMENT: u8 = 134;

const NEIGHBOR_SOLICITATION: u8 = 135;

const NEIGHBOR_ADVERTISEMENT: u8 = 136;

const REDIRECT: u8 = 137;

// The fields of messages (RFC 4861 section 4).
mod place {
    use control_wire::octets::Field;

    pub const ROUTER_LIFETIME: Field = 6..8;

    pub const REACHABLE_TIME: Field = 8..12;

    pub const RETRANS_TIME: Field = 12..16;

    pub const TARGET_ADDR: Field = 8..24;

    pub const DEST_ADDR: Field = 24..40;
}

/// Prints a message of neighbor discovery, by its octets from the type on: its fields and all its options in turn
/// (RFC 4861 sections 4.1 to 4.6). Of a message of another type, all that follows its first 8 octets is taken for
/// options. One that is cut within its fields says so, and prints the octets that are there.
pub fn show_ndisc<W: Write>(output: &mut W, form: Form, message: &[u8]) -> io::Result<()> {
    if message.len() < HEAD_LEN {
        return show_cut(output, form, message);
    }
    show_head(output, form, message)?;
    show_body(output, form, message)
}

// Prints what follows the checksum.
fn show_body<W: Write>(output: &mut W, form: Form, message: &[u8]) -> io::Result<()> {
    let header_len = header_len(message[0]);
    if message.len() < header_len {
        let (_, octets) = message.split_at(HEAD_LEN);
        return show_cut(output, form, octets);
    }
    let (_, options) = message.split_at(header_len);
    show_fields(output, form, message)?;
    show_options(output, form, options)
}

/// The octets before the options of a message of this type.
pub fn header_len(type_: u8) -> usize {
    match type_ {
        ROUTER_ADVERTISEMENT => 16,
        NEIGHBOR_SOLICITATION | NEIGHBOR_ADVERTISEMENT => 24,
        REDIRECT => 40,
        _ => 8,
    }
}

// Prints the fields before the options.
fn show_fields<W: Write>(output: &mut W, form: Form, message: &[u8]) -> io::Result<()> {
    match message[0] {
        ROUTER_ADVERTISEMENT => show_router(output, form, message),
        NEIGHBOR_SOLICITATION => show_target(output, form, message),
        NEIGHBOR_ADVERTISEMENT => show_neighbor(output, form, message),
        REDIRECT => show_redirect(output, form, message),
        _ => Ok(()),
    }
}

// Prints the fields of a router advertisement.
fn show_router<W: Write>(output: &mut W, form: Form, message: &[u8]) -> io::Result<()> {
    let flags = message[5];
    let router_lifetime = Seconds(message.u16_at(place::ROUTER_LIFETIME) as u32);
    let reachable_time = millis(message.u32_at(place::REACHABLE_TIME));
    let retrans_time = millis(message.u32_at(place::RETRANS_TIME));
    field(output, form, "hop_limit", message[4])?;
    show_router_flags(output, form, flags)?;
    show_preference(output, form, flags / 8 % 4)?;
    field(output, form, "router_lifetime", router_lifetime)?;
    field(output, form, "reachable_time", reachable_time)?;
    field(output, form, "retrans_time", retrans_time)
}

// Prints the flags of a router; the bits between are its preference.
fn show_router_flags<W: Write>(output: &mut W, form: Form, bits: u8) -> io::Result<()> {
    let flags = Flags {
        rows: ROUTER_FLAGS,
        bits: bits as u16,
    };
    field(output, form, "flags", flags)
}

// Prints the flags of a neighbor.
fn show_neighbor_flags<W: Write>(output: &mut W, form: Form, bits: u8) -> io::Result<()> {
    let flags = Flags {
        rows: NEIGHBOR_FLAGS,
        bits: bits as u16,
    };
    field(output, form, "flags", flags)
}

// Prints a router's preference (RFC 4191 section 2.1).
fn show_preference<W: Write>(output: &mut W, form: Form, preference: u8) -> io::Result<()> {
    let name = preference_name(preference);
    named(output, form, "preference", preference as u64, name)
}

// Prints the fields of a neighbor advertisement.
fn show_neighbor<W: Write>(output: &mut W, form: Form, message: &[u8]) -> io::Result<()> {
    show_neighbor_flags(output, form, message[4])?;
    show_target(output, form, message)
}

// Prints the fields of a redirect.
fn show_redirect<W: Write>(output: &mut W, form: Form, message: &[u8]) -> io::Result<()> {
    let addr = message.field(place::DEST_ADDR);
    show_target(output, form, message)?;
    field(output, form, "dest_addr", Address(addr))
}

// Prints the target address.
fn show_target<W: Write>(output: &mut W, form: Form, message: &[u8]) -> io::Result<()> {
    let addr = message.field(place::TARGET_ADDR);
    field(output, form, "target_addr", Address(addr))
}

// The name of the preference of a router or a route (RFC 4191 section 2.1).
pub(crate) fn preference_name(preference: u8) -> Option<&'static str> {
    name_in(PREFERENCES, preference as u16)
}

const PREFERENCES: &[Row] = &[(0, "medium"), (1, "high"), (2, "reserved"), (3, "low")];

const ROUTER_FLAGS: &[Row] = &[
    (0x80, "managed"),
    (0x40, "other"),
    (0x20, "home_agent"),
    (0x04, "proxy"),
    (0x02, "0x02"),
    (0x01, "0x01"),
];

const NEIGHBOR_FLAGS: &[Row] = &[
    (0x80, "router"),
    (0x40, "solicited"),
    (0x20, "override"),
    (0x10, "0x10"),
    (0x08, "0x08"),
    (0x04, "0x04"),
    (0x02, "0x02"),
    (0x01, "0x01"),
];
