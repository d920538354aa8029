// Made from crates/dns_fields/src/node.rt by rust/erase.
//! Addresses and names of nodes, each with its flags (RFC 1002 sections 4.2.1.3 and 4.2.18).

use crate::lists::{put_closing, put_none, put_opening};
use crate::netbios::put_bytes;
use control_wire::Octets;
use control_wire::inside::text::{Sink, put_v4};
use packet_fields::Form;
use packet_fields::texts::v4_of;
use packet_fields::value::{Text, Value, put_text};
use rattle_std::io;
use rattle_std::io::Write;

// The fields of an address and of a name.
mod field {
    use control_wire::Field;

    pub const ADDRESS_FLAGS: Field = 0..2;

    pub const ADDRESS: Field = 2..6;

    pub const NAME_FLAGS: Field = 16..18;
}

/// A kind of entries of data.
#[derive(Debug, PartialEq, Eq, Clone, Copy)]
pub enum Part {
    /// Two octets of flags, and an IPv4 address.
    Address,
    /// A name of 16 octets, and two of flags.
    Name,
}

impl Part {
    /// The octets of an entry.
    pub fn width(self) -> usize {
        match self {
            Part::Address => field::ADDRESS.end,
            Part::Name => field::NAME_FLAGS.end,
        }
    }
}

/// Entries of data, each by its text, but for one that is cut.
#[derive(Clone, Copy)]
pub(crate) struct Parts<'a> {
    pub(crate) part: Part,
    pub(crate) octets: &'a [u8],
}

impl Value for Parts<'_> {
    fn put<W: Write>(self, output: &mut W, form: Form) -> io::Result<()> {
        put_parts(output, form, self.part, self.octets)
    }
}

// Prints entries with commas between them.
fn put_parts<W: Write>(output: &mut W, form: Form, part: Part, octets: &[u8]) -> io::Result<()> {
    let width = part.width();
    if octets.len() < width {
        return put_none(output, form);
    }
    let (first, others) = octets.split_at(width);
    put_opening(output, form)?;
    let one = OnePart {
        part,
        octets: first,
    };
    put_text(output, form, one)?;
    put_others(output, form, part, others)?;
    put_closing(output, form)
}

// Prints each further entry after a comma.
fn put_others<W: Write>(output: &mut W, form: Form, part: Part, octets: &[u8]) -> io::Result<()> {
    let width = part.width();
    let mut left = octets;
    while left.len() >= width {
        let (next, others) = left.split_at(width);
        output.write_all(b",")?;
        let one = OnePart { part, octets: next };
        put_text(output, form, one)?;
        left = others;
    }
    Ok(())
}

/// An entry of data, by its text.
#[derive(Clone, Copy)]
pub struct OnePart<'a> {
    /// What it is.
    pub part: Part,
    /// Its octets, as many as the width of such entries.
    pub octets: &'a [u8],
}

impl Text for OnePart<'_> {
    fn put_into<O, S: Sink<O>>(self, output: &mut O) -> Result<(), S::Error> {
        match self.part {
            Part::Address => put_address::<O, S>(output, self.octets),
            Part::Name => put_name::<O, S>(output, self.octets),
        }
    }
}

// Puts flags and an address.
fn put_address<O, S: Sink<O>>(output: &mut O, octets: &[u8]) -> Result<(), S::Error> {
    let (_, address) = octets.split_at(field::ADDRESS.start);
    put_node::<O, S>(output, octets.u16_at(field::ADDRESS_FLAGS))?;
    S::put_str(output, " ")?;
    put_v4::<O, S>(output, v4_of(address), None)
}

// Puts a name and its flags.
fn put_name<O, S: Sink<O>>(output: &mut O, octets: &[u8]) -> Result<(), S::Error> {
    let (name, _) = octets.split_at(field::NAME_FLAGS.start);
    let word = octets.u16_at(field::NAME_FLAGS);
    put_bytes::<O, S>(output, name)?;
    S::put_str(output, " ")?;
    put_node::<O, S>(output, word)?;
    put_state::<O, S>(output, word)
}

// Puts whether a name is of a group, and the type of its owner.
fn put_node<O, S: Sink<O>>(output: &mut O, word: u16) -> Result<(), S::Error> {
    S::put_str(
        output,
        if word & GROUP == 0 {
            "unique "
        } else {
            "group "
        },
    )?;
    S::put_str(output, type_of(word / 0x2000 % 4))
}

// The type of a node (RFC 1001 section 10), of which 3 is a mixed one that asks a name server first.
fn type_of(number: u16) -> &'static str {
    match number {
        0 => "b-node",
        1 => "p-node",
        2 => "m-node",
        _ => "h-node",
    }
}

// Puts the state of a name.
fn put_state<O, S: Sink<O>>(output: &mut O, word: u16) -> Result<(), S::Error> {
    put_flag::<O, S>(output, word & DEREGISTERED, " deregister")?;
    put_flag::<O, S>(output, word & CONFLICT, " conflict")?;
    put_flag::<O, S>(output, word & ACTIVE, " active")?;
    put_flag::<O, S>(output, word & PERMANENT, " permanent")
}

// Puts the name of a flag where it is set.
fn put_flag<O, S: Sink<O>>(output: &mut O, bit: u16, name: &str) -> Result<(), S::Error> {
    S::put_str(output, if bit == 0 { "" } else { name })
}

const GROUP: u16 = 0x8000;

const DEREGISTERED: u16 = 0x1000;

const CONFLICT: u16 = 0x0800;

const ACTIVE: u16 = 0x0400;

const PERMANENT: u16 = 0x0200;
