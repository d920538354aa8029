// Made from crates/dump_captures/src/objects.rt by rust/erase.
//! Objects of JSON on a line each.

use crate::members::show_file;
use packet_fields::Form;
use packet_fields::value::{Value, put_string};
use rattle_std::io;
use rattle_std::io::Write;

/// Prints the front of an object, up to its first member.
pub(crate) fn open_object<V: Value, W: Write>(
    output: &mut W,
    key: &str,
    value: V,
) -> io::Result<()> {
    output.write_all(b"{")?;
    put_string(output, key)?;
    output.write_all(b":")?;
    value.put(output, Form::Json)
}

/// Prints the front of an object that stands behind those of packets, up to the name of the file where it is to be
/// told.
pub(crate) fn open_summary<W: Write>(
    output: &mut W,
    word: &str,
    file: Option<&str>,
) -> io::Result<()> {
    open_object(output, "summary", word)?;
    show_file(output, file)
}

/// Prints the end of an object, behind its last member.
pub(crate) fn close_object<W: Write>(output: &mut W) -> io::Result<()> {
    output.write_all(b"}\n")
}
