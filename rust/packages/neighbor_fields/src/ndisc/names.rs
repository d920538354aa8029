// Made from crates/neighbor_fields/src/ndisc/names.rt by rust/erase.
//! The domain names of a search list, printed as a list of texts.

use super::texts::{Name, name_len};
use packet_fields::Form;
use packet_fields::value::{Text, Value, put_text};
use rattle_std::io;
use rattle_std::io::Write;

// Domain names, one after another up to the end or to a zero in the place of a name, which is padding.
#[derive(Clone, Copy)]
pub(super) struct Names<'a>(pub(super) &'a [u8]);

impl Value for Names<'_> {
    fn put<W: Write>(self, output: &mut W, form: Form) -> io::Result<()> {
        open_texts(output, form)?;
        let is_none = put_names(output, form, self.0)?;
        close_texts(output, form, is_none)
    }
}

// Prints the names, and returns whether there are none.
fn put_names<W: Write>(output: &mut W, form: Form, octets: &[u8]) -> io::Result<bool> {
    let mut rest = octets;
    let mut is_first = true;
    while !rest.is_empty() && rest[0] != 0 {
        let (name, others) = rest.split_at(name_len(rest));
        put_among(output, form, is_first, Name(name))?;
        rest = others;
        is_first = false;
    }
    Ok(is_first)
}

// Prints what precedes texts.
fn open_texts<W: Write>(output: &mut W, form: Form) -> io::Result<()> {
    match form {
        Form::Lines => Ok(()),
        Form::Json => output.write_all(b"["),
    }
}

// Prints a text among others.
fn put_among<T: Text, W: Write>(
    output: &mut W,
    form: Form,
    is_first: bool,
    value: T,
) -> io::Result<()> {
    put_comma(output, is_first)?;
    put_text(output, form, value)
}

fn put_comma<W: Write>(output: &mut W, is_first: bool) -> io::Result<()> {
    if is_first {
        return Ok(());
    }
    output.write_all(b",")
}

// Prints what follows texts.
fn close_texts<W: Write>(output: &mut W, form: Form, is_none: bool) -> io::Result<()> {
    match form {
        Form::Lines if is_none => output.write_all(b"-"),
        Form::Lines => Ok(()),
        Form::Json => output.write_all(b"]"),
    }
}
