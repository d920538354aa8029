// Made from crates/packet_fields/src/value.rt by rust/erase.
//! The values of fields.

use crate::escapes::ToString;
use crate::form::Form;
use crate::output::ToWriter;
use control_wire::inside::text::{Sink, put_hex, put_number, put_octets, put_v4, put_v6};
use control_wire::{Duration, Ipv4Address, Ipv6Address};
use rattle_std::io;
use rattle_std::io::Write;

/// The value of a field.
pub trait Value {
    /// Prints the value alone.
    fn put<W: Write>(self, output: &mut W, form: Form) -> io::Result<()>;
}

impl Value for u8 {
    fn put<W: Write>(self, output: &mut W, form: Form) -> io::Result<()> {
        u64::from(self).put(output, form)
    }
}

impl Value for u16 {
    fn put<W: Write>(self, output: &mut W, form: Form) -> io::Result<()> {
        u64::from(self).put(output, form)
    }
}

impl Value for u32 {
    fn put<W: Write>(self, output: &mut W, form: Form) -> io::Result<()> {
        u64::from(self).put(output, form)
    }
}

impl Value for u64 {
    fn put<W: Write>(self, output: &mut W, _form: Form) -> io::Result<()> {
        put_number::<_, ToWriter>(output, self)
    }
}

impl Value for bool {
    fn put<W: Write>(self, output: &mut W, _form: Form) -> io::Result<()> {
        output.write_all(if self { b"true" } else { b"false" })
    }
}

impl Value for &str {
    fn put<W: Write>(self, output: &mut W, form: Form) -> io::Result<()> {
        put_text(output, form, self)
    }
}

impl Value for Ipv4Address {
    fn put<W: Write>(self, output: &mut W, form: Form) -> io::Result<()> {
        put_text(output, form, self)
    }
}

impl Value for Ipv6Address {
    fn put<W: Write>(self, output: &mut W, form: Form) -> io::Result<()> {
        put_text(output, form, self)
    }
}

impl Value for &[u8] {
    fn put<W: Write>(self, output: &mut W, form: Form) -> io::Result<()> {
        match form {
            Form::Lines => put_octets::<_, ToWriter>(output, self),
            Form::Json => put_string(output, Digits(self)),
        }
    }
}

impl<V: Value> Value for Option<V> {
    fn put<W: Write>(self, output: &mut W, form: Form) -> io::Result<()> {
        match self {
            Some(value) => value.put(output, form),
            None => put_missing(output, form),
        }
    }
}

// Whole milliseconds; lines have seconds.
impl Value for Duration {
    fn put<W: Write>(self, output: &mut W, form: Form) -> io::Result<()> {
        put_time(output, form, self.total_millis())
    }
}

// Prints a time of so many milliseconds.
fn put_time<W: Write>(output: &mut W, form: Form, millis: u64) -> io::Result<()> {
    match form {
        Form::Lines => put_seconds(output, millis),
        Form::Json => put_number::<_, ToWriter>(output, millis),
    }
}

fn put_seconds<W: Write>(output: &mut W, millis: u64) -> io::Result<()> {
    put_number::<_, ToWriter>(output, millis / 1000)?;
    put_fraction(output, millis % 1000)?;
    output.write_all(b"s")
}

// Prints what follows the seconds.
fn put_fraction<W: Write>(output: &mut W, millis: u64) -> io::Result<()> {
    if millis == 0 {
        return Ok(());
    }
    put_millis(output, millis)
}

// Prints a dot and three digits.
fn put_millis<W: Write>(output: &mut W, millis: u64) -> io::Result<()> {
    output.write_all(b".")?;
    put_number::<_, ToWriter>(output, millis / 100)?;
    put_number::<_, ToWriter>(output, millis / 10 % 10)?;
    put_number::<_, ToWriter>(output, millis % 10)
}

/// Seconds, as a time.
#[derive(Debug, PartialEq, Eq, Clone, Copy)]
pub struct Seconds(pub u32);

impl Value for Seconds {
    fn put<W: Write>(self, output: &mut W, form: Form) -> io::Result<()> {
        put_time(output, form, 1_000 * u64::from(self.0))
    }
}

/// Texts, in lines with commas between them.
#[derive(Debug, Clone, Copy)]
pub struct Texts<'a, T>(pub &'a [T]);

impl<T: Text + Copy> Value for Texts<'_, T> {
    fn put<W: Write>(self, output: &mut W, form: Form) -> io::Result<()> {
        match form {
            Form::Lines => put_commas(output, self.0),
            Form::Json => put_strings(output, self.0),
        }
    }
}

// Prints texts with commas between them.
fn put_commas<T: Text + Copy, W: Write>(output: &mut W, list: &[T]) -> io::Result<()> {
    let [first, rest @ ..] = list else {
        return output.write_all(b"-");
    };
    first.put_into::<W, ToWriter>(output)?;
    for next in rest {
        output.write_all(b",")?;
        next.put_into::<W, ToWriter>(output)?;
    }
    Ok(())
}

// Prints texts as an array of strings.
fn put_strings<T: Text + Copy, W: Write>(output: &mut W, list: &[T]) -> io::Result<()> {
    let [first, rest @ ..] = list else {
        return output.write_all(b"[]");
    };
    output.write_all(b"[")?;
    put_string(output, *first)?;
    for next in rest {
        output.write_all(b",")?;
        put_string(output, *next)?;
    }
    output.write_all(b"]")
}

fn put_missing<W: Write>(output: &mut W, form: Form) -> io::Result<()> {
    match form {
        Form::Lines => output.write_all(b"none"),
        Form::Json => output.write_all(b"null"),
    }
}

/// A text that is put as it is, or as a string of JSON.
pub trait Text {
    /// Puts the text.
    fn put_into<O, S: Sink<O>>(self, output: &mut O) -> Result<(), S::Error>;
}

impl Text for &str {
    fn put_into<O, S: Sink<O>>(self, output: &mut O) -> Result<(), S::Error> {
        S::put_str(output, self)
    }
}

impl Text for Ipv4Address {
    fn put_into<O, S: Sink<O>>(self, output: &mut O) -> Result<(), S::Error> {
        put_v4::<O, S>(output, self, None)
    }
}

impl Text for Ipv6Address {
    fn put_into<O, S: Sink<O>>(self, output: &mut O) -> Result<(), S::Error> {
        put_v6::<O, S>(output, self, None)
    }
}

/// Octets in hexadecimal digits, with colons between them: a link-layer address.
#[derive(Debug, PartialEq, Eq, Clone, Copy)]
pub struct Colons<'a>(pub &'a [u8]);

impl Value for Colons<'_> {
    fn put<W: Write>(self, output: &mut W, form: Form) -> io::Result<()> {
        put_text(output, form, self)
    }
}

impl Text for Colons<'_> {
    fn put_into<O, S: Sink<O>>(self, output: &mut O) -> Result<(), S::Error> {
        let [first, rest @ ..] = self.0 else {
            return Ok(());
        };
        put_hex::<O, S>(output, &[*first])?;
        put_behind_colons::<O, S>(output, rest)
    }
}

// Puts each octet after a colon.
fn put_behind_colons<O, S: Sink<O>>(output: &mut O, octets: &[u8]) -> Result<(), S::Error> {
    for octet in octets {
        put_behind_colon::<O, S>(output, *octet)?;
    }
    Ok(())
}

fn put_behind_colon<O, S: Sink<O>>(output: &mut O, octet: u8) -> Result<(), S::Error> {
    S::put_str(output, ":")?;
    put_hex::<O, S>(output, &[octet])
}

// Octets by their hexadecimal digits alone.
#[derive(Clone, Copy)]
struct Digits<'a>(&'a [u8]);

impl Text for Digits<'_> {
    fn put_into<O, S: Sink<O>>(self, output: &mut O) -> Result<(), S::Error> {
        put_hex::<O, S>(output, self.0)
    }
}

/// Prints a text.
pub fn put_text<T: Text, W: Write>(output: &mut W, form: Form, value: T) -> io::Result<()> {
    match form {
        Form::Lines => value.put_into::<W, ToWriter>(output),
        Form::Json => put_string(output, value),
    }
}

/// Prints a text as a string of JSON.
pub fn put_string<T: Text, W: Write>(output: &mut W, value: T) -> io::Result<()> {
    output.write_all(b"\"")?;
    value.put_into::<W, ToString>(output)?;
    output.write_all(b"\"")
}
