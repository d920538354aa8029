// Made from crates/dns_fields/src/lists.rt by rust/erase.
//! What stands around texts in a list.

use packet_fields::Form;
use rattle_std::io;
use rattle_std::io::Write;

/// Prints that there are no texts.
pub(crate) fn put_none<W: Write>(output: &mut W, form: Form) -> io::Result<()> {
    match form {
        Form::Lines => output.write_all(b"-"),
        Form::Json => output.write_all(b"[]"),
    }
}

/// Prints what precedes some.
pub(crate) fn put_opening<W: Write>(output: &mut W, form: Form) -> io::Result<()> {
    match form {
        Form::Lines => Ok(()),
        Form::Json => output.write_all(b"["),
    }
}

/// Prints what follows them.
pub(crate) fn put_closing<W: Write>(output: &mut W, form: Form) -> io::Result<()> {
    match form {
        Form::Lines => Ok(()),
        Form::Json => output.write_all(b"]"),
    }
}
