// Made from crates/icmp_fields/src/texts.rt by rust/erase.
//! Texts of names that are octets, and of preferences.

use control_wire::inside::text::{Sink, put_hex, put_number};
use packet_fields::Form;
use packet_fields::value::{Text, Value, put_text};
use rattle_std::io;
use rattle_std::io::Write;

// A name of whatever octets, without the zeros at its end, which pad it: visible characters of ASCII as they are, a
// quotation mark and a backslash behind a backslash, and a space and every other octet as `\x` and two digits.
#[derive(Clone, Copy)]
pub(crate) struct Name<'a>(pub(crate) &'a [u8]);

impl Value for Name<'_> {
    fn put<W: Write>(self, output: &mut W, form: Form) -> io::Result<()> {
        put_text(output, form, self)
    }
}

impl Text for Name<'_> {
    fn put_into<O, S: Sink<O>>(self, output: &mut O) -> Result<(), S::Error> {
        put_characters::<O, S>(output, trimmed(self.0))
    }
}

fn put_characters<O, S: Sink<O>>(output: &mut O, octets: &[u8]) -> Result<(), S::Error> {
    for octet in octets {
        put_character::<O, S>(output, *octet)?;
    }
    Ok(())
}

fn put_character<O, S: Sink<O>>(output: &mut O, octet: u8) -> Result<(), S::Error> {
    match octet {
        b'"' | b'\\' => S::put(output, &[b'\\', octet]),
        b'!'..=b'~' => S::put(output, &[octet]),
        _ => put_hidden::<O, S>(output, octet),
    }
}

fn put_hidden<O, S: Sink<O>>(output: &mut O, octet: u8) -> Result<(), S::Error> {
    S::put_str(output, "\\x")?;
    put_hex::<O, S>(output, &[octet])
}

// The octets without the zeros at their end.
pub(crate) fn trimmed(octets: &[u8]) -> &[u8] {
    let mut len = octets.len();
    while len > 0 && octets[len - 1] == 0 {
        len -= 1;
    }
    &octets[..len]
}

// A number of 32 bits in two's complement.
#[derive(Clone, Copy)]
pub(crate) struct Signed(pub(crate) u32);

// Two to the power of 32, and half of it.
const MODULUS: u64 = 1 << 32;

const SIGN: u32 = 1 << 31;

impl Value for Signed {
    fn put<W: Write>(self, output: &mut W, form: Form) -> io::Result<()> {
        put_text(output, form, self)
    }
}

impl Text for Signed {
    fn put_into<O, S: Sink<O>>(self, output: &mut O) -> Result<(), S::Error> {
        if self.0 < SIGN {
            return put_number::<O, S>(output, self.0 as u64);
        }
        put_negative::<O, S>(output, MODULUS - self.0 as u64)
    }
}

// Puts a number behind a sign.
fn put_negative<O, S: Sink<O>>(output: &mut O, number: u64) -> Result<(), S::Error> {
    S::put_str(output, "-")?;
    put_number::<O, S>(output, number)
}
