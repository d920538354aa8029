// Made from crates/dhcp_fields/src/texts.rt by rust/erase.
//! The texts of names and of options.

use control_wire::dhcpv4::DhcpOption;
use control_wire::inside::text::{Sink, put_hex, put_number};
use packet_fields::Form;
use packet_fields::value::{Text, Value, put_text};
use rattle_std::io;
use rattle_std::io::Write;

// A text of whatever bytes: a quotation mark and a backslash are put behind a backslash, and a byte that is neither a
// visible character of ASCII nor a space as `\x` and two digits.
#[derive(Clone, Copy)]
pub(crate) struct Escaped<'a>(pub(crate) &'a [u8]);

impl Value for Escaped<'_> {
    fn put<W: Write>(self, output: &mut W, form: Form) -> io::Result<()> {
        put_text(output, form, self)
    }
}

impl Text for Escaped<'_> {
    fn put_into<O, S: Sink<O>>(self, output: &mut O) -> Result<(), S::Error> {
        put_characters::<O, S>(output, self.0)
    }
}

fn put_characters<O, S: Sink<O>>(output: &mut O, octets: &[u8]) -> Result<(), S::Error> {
    for octet in octets {
        put_character::<O, S>(output, *octet)?;
    }
    Ok(())
}

fn put_character<O, S: Sink<O>>(output: &mut O, octet: u8) -> Result<(), S::Error> {
    match octet {
        b'"' | b'\\' => S::put(output, &[b'\\', octet]),
        b' '..=b'~' => S::put(output, &[octet]),
        _ => put_hidden::<O, S>(output, octet),
    }
}

fn put_hidden<O, S: Sink<O>>(output: &mut O, octet: u8) -> Result<(), S::Error> {
    S::put_str(output, "\\x")?;
    put_hex::<O, S>(output, &[octet])
}

// What an option of this kind is called: its name with underscores, as `host_name`, or its number, as `option_224`.
#[derive(Clone, Copy)]
pub(crate) struct OptionLabel(pub(crate) u8);

impl Text for OptionLabel {
    fn put_into<O, S: Sink<O>>(self, output: &mut O) -> Result<(), S::Error> {
        match name_of(self.0) {
            Some(name) => put_key::<O, S>(output, name),
            None => put_numbered::<O, S>(output, self.0),
        }
    }
}

fn name_of(kind: u8) -> Option<&'static str> {
    DhcpOption { kind, data: &[] }.name()
}

fn put_numbered<O, S: Sink<O>>(output: &mut O, kind: u8) -> Result<(), S::Error> {
    S::put_str(output, "option_")?;
    put_number::<O, S>(output, kind as u64)
}

fn put_key<O, S: Sink<O>>(output: &mut O, name: &str) -> Result<(), S::Error> {
    put_key_bytes::<O, S>(output, name.as_bytes())
}

fn put_key_bytes<O, S: Sink<O>>(output: &mut O, octets: &[u8]) -> Result<(), S::Error> {
    for octet in octets {
        S::put(output, &[key_byte(*octet)])?;
    }
    Ok(())
}

// A byte of a key: a digit or a small letter; others are underscores.
fn key_byte(octet: u8) -> u8 {
    match octet {
        b'0'..=b'9' | b'a'..=b'z' => octet,
        _ => b'_',
    }
}

/// The bytes before the first zero, or all where there is none.
pub(crate) fn before_zero(octets: &[u8]) -> &[u8] {
    for (place, octet) in octets.iter().enumerate() {
        if *octet == 0 {
            return &octets[..place];
        }
    }
    octets
}
