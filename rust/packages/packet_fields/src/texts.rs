// Made from crates/packet_fields/src/texts.rt by rust/erase.
//! Texts in lists: addresses, and the names of flags.

use crate::form::Form;
use crate::names::Row;
use crate::value::{Text, Value, put_text};
use control_wire::inside::text::{Sink, put_hex, put_v4, put_v6};
use control_wire::{Ipv4Address, Ipv6Address};
use rattle_std::io;
use rattle_std::io::Write;

/// An IPv6 address by its 16 octets, or an IPv4 address by its 4; of another number of octets their hexadecimal digits.
#[derive(Clone, Copy)]
pub struct Address<'a>(pub &'a [u8]);

impl Text for Address<'_> {
    fn put_into<O, S: Sink<O>>(self, output: &mut O) -> Result<(), S::Error> {
        if self.0.len() == 16 {
            return put_v6::<O, S>(output, v6_of(self.0), None);
        }
        if self.0.len() == 4 {
            return put_v4::<O, S>(output, v4_of(self.0), None);
        }
        put_hex::<O, S>(output, self.0)
    }
}

impl Value for Address<'_> {
    fn put<W: Write>(self, output: &mut W, form: Form) -> io::Result<()> {
        put_text(output, form, self)
    }
}

/// The IPv6 address of 16 octets. Requires that many.
pub fn v6_of(octets: &[u8]) -> Ipv6Address {
    Ipv6Address::from_octets(octets.try_into().unwrap())
}

/// The IPv4 address of 4 octets. Requires that many.
pub fn v4_of(octets: &[u8]) -> Ipv4Address {
    Ipv4Address::new(octets[0], octets[1], octets[2], octets[3])
}

/// Addresses of so many octets each, in a row; the last may be cut.
#[derive(Clone, Copy)]
pub struct Addresses<'a> {
    /// The octets of an address, 1 or more.
    pub width: usize,
    /// The octets of all.
    pub octets: &'a [u8],
}

impl Value for Addresses<'_> {
    fn put<W: Write>(self, output: &mut W, form: Form) -> io::Result<()> {
        open_texts(output, form)?;
        let is_none = put_addresses(output, form, self)?;
        close_texts(output, form, is_none)
    }
}

// Prints the addresses, and returns whether there are none.
fn put_addresses<W: Write>(output: &mut W, form: Form, list: Addresses<'_>) -> io::Result<bool> {
    let mut rest = list.octets;
    let mut is_first = true;
    while !rest.is_empty() {
        let (address, others) = rest.split_at(address_len(list.width, rest));
        put_among(output, form, is_first, Address(address))?;
        rest = others;
        is_first = false;
    }
    Ok(is_first)
}

// The octets of the first address.
fn address_len(width: usize, octets: &[u8]) -> usize {
    if octets.len() < width {
        return octets.len();
    }
    width
}

/// Flags by the names of those that are set.
#[derive(Clone, Copy)]
pub struct Flags {
    /// The bit of each flag, and its name.
    pub rows: &'static [Row],
    /// The flags.
    pub bits: u16,
}

impl Value for Flags {
    fn put<W: Write>(self, output: &mut W, form: Form) -> io::Result<()> {
        open_texts(output, form)?;
        let is_none = put_flags(output, form, self.rows, self.bits)?;
        close_texts(output, form, is_none)
    }
}

// Prints the names of flags, and returns whether there are none.
fn put_flags<W: Write>(output: &mut W, form: Form, rows: &[Row], bits: u16) -> io::Result<bool> {
    let mut is_first = true;
    let mut place = 0;
    while place < rows.len() {
        is_first = put_flag(output, form, is_first, rows, place, bits)?;
        place += 1;
    }
    Ok(is_first)
}

// Prints the name of the flag at this place where it is set, and returns whether the next one is the first.
fn put_flag<W: Write>(
    output: &mut W,
    form: Form,
    is_first: bool,
    rows: &[Row],
    place: usize,
    bits: u16,
) -> io::Result<bool> {
    let [(bit, name), ..] = &rows[place..] else {
        return Ok(is_first);
    };
    if bits & *bit == 0 {
        return Ok(is_first);
    }
    put_among(output, form, is_first, *name)?;
    Ok(false)
}

// Prints what precedes texts.
fn open_texts<W: Write>(output: &mut W, form: Form) -> io::Result<()> {
    match form {
        Form::Lines => Ok(()),
        Form::Json => output.write_all(b"["),
    }
}

// Prints a text among others.
fn put_among<T: Text, W: Write>(
    output: &mut W,
    form: Form,
    is_first: bool,
    value: T,
) -> io::Result<()> {
    put_comma(output, is_first)?;
    put_text(output, form, value)
}

fn put_comma<W: Write>(output: &mut W, is_first: bool) -> io::Result<()> {
    if is_first {
        return Ok(());
    }
    output.write_all(b",")
}

// Prints what follows texts.
fn close_texts<W: Write>(output: &mut W, form: Form, is_none: bool) -> io::Result<()> {
    match form {
        Form::Lines if is_none => output.write_all(b"-"),
        Form::Lines => Ok(()),
        Form::Json => output.write_all(b"]"),
    }
}
