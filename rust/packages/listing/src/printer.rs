// Made from crates/listing/src/printer.rt by rust/erase.
//! Printing of values: names and fields, one a line.

use control_wire::inside::text::{put_number, put_octets, put_v4};
use control_wire::{Duration, Ipv4Address};
use packet_fields::output::ToWriter;
use rattle_std::io;
use rattle_std::io::Write;

/// The value after a field's name: a number, truth value, text or octets, or no value.
pub trait Value {
    /// Writes the value as it is printed, without a newline.
    fn write_to<W: Write>(self, output: &mut W) -> io::Result<()>;
}

impl Value for u8 {
    fn write_to<W: Write>(self, output: &mut W) -> io::Result<()> {
        put_number::<_, ToWriter>(output, u64::from(self))
    }
}

impl Value for u16 {
    fn write_to<W: Write>(self, output: &mut W) -> io::Result<()> {
        put_number::<_, ToWriter>(output, u64::from(self))
    }
}

impl Value for u32 {
    fn write_to<W: Write>(self, output: &mut W) -> io::Result<()> {
        put_number::<_, ToWriter>(output, u64::from(self))
    }
}

impl Value for u64 {
    fn write_to<W: Write>(self, output: &mut W) -> io::Result<()> {
        put_number::<_, ToWriter>(output, self)
    }
}

impl Value for usize {
    fn write_to<W: Write>(self, output: &mut W) -> io::Result<()> {
        put_number::<_, ToWriter>(output, self as u64)
    }
}

impl Value for bool {
    fn write_to<W: Write>(self, output: &mut W) -> io::Result<()> {
        output.write_all(if self { b"true" } else { b"false" })
    }
}

impl Value for &str {
    fn write_to<W: Write>(self, output: &mut W) -> io::Result<()> {
        output.write_all(self.as_bytes())
    }
}

// An address with dots.
impl Value for Ipv4Address {
    fn write_to<W: Write>(self, output: &mut W) -> io::Result<()> {
        put_v4::<_, ToWriter>(output, self, None)
    }
}

// A span of time in whole milliseconds.
impl Value for Duration {
    fn write_to<W: Write>(self, output: &mut W) -> io::Result<()> {
        self.total_millis().write_to(output)
    }
}

impl<V: Value> Value for Option<V> {
    fn write_to<W: Write>(self, output: &mut W) -> io::Result<()> {
        match self {
            Some(value) => value.write_to(output),
            None => output.write_all(b"none"),
        }
    }
}

// Octets in lower-case hexadecimal digits, or `-` for none.
impl Value for &[u8] {
    fn write_to<W: Write>(self, output: &mut W) -> io::Result<()> {
        put_octets::<_, ToWriter>(output, self)
    }
}

/// Prints a line of its own: a variant's name, a value without a name, or a result that is no value.
pub fn line<V: Value, W: Write>(output: &mut W, value: V) -> io::Result<()> {
    value.write_to(output)?;
    output.write_all(b"\n")
}

/// Prints a field, or a variant with one unnamed value, as `name=value`. Inlined: most callers know the name, and copy
/// it without a call.
#[inline(always)]
pub fn field<V: Value, W: Write>(output: &mut W, name: &str, value: V) -> io::Result<()> {
    output.write_all(name.as_bytes())?;
    output.write_all(b"=")?;
    line(output, value)
}

/// Prints a field of a part, after `part`: the part's name and a dot, which precede the field's name.
#[inline(always)]
pub fn part_field<V: Value, W: Write>(
    output: &mut W,
    part: &str,
    name: &str,
    value: V,
) -> io::Result<()> {
    output.write_all(part.as_bytes())?;
    field(output, name, value)
}
