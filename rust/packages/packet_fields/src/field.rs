// Made from crates/packet_fields/src/field.rt by rust/erase.
//! Fields, and entries of lists.

use crate::form::Form;
use crate::value::{Text, Value, put_string};
use control_wire::inside::text::Sink;
use rattle_std::io;
use rattle_std::io::Write;

/// Prints a field.
pub fn field<V: Value, W: Write>(
    output: &mut W,
    form: Form,
    key: &str,
    value: V,
) -> io::Result<()> {
    begin(output, form, key)?;
    value.put(output, form)?;
    end(output, form)
}

/// Prints a number, and its name where it has one.
pub fn named<W: Write>(
    output: &mut W,
    form: Form,
    key: &str,
    number: u64,
    name: Option<&str>,
) -> io::Result<()> {
    begin(output, form, key)?;
    number.put(output, form)?;
    show_name(output, form, key, name)?;
    end(output, form)
}

// Prints a number's name after it.
fn show_name<W: Write>(
    output: &mut W,
    form: Form,
    key: &str,
    name: Option<&str>,
) -> io::Result<()> {
    let Some(name) = name else {
        return Ok(());
    };
    match form {
        Form::Lines => show_brackets(output, name),
        Form::Json => show_name_member(output, key, name),
    }
}

fn show_brackets<W: Write>(output: &mut W, name: &str) -> io::Result<()> {
    output.write_all(b" (")?;
    output.write_all(name.as_bytes())?;
    output.write_all(b")")
}

// Prints what precedes a value.
fn begin<W: Write>(output: &mut W, form: Form, key: &str) -> io::Result<()> {
    match form {
        Form::Lines => {
            output.write_all(b"  ")?;
            output.write_all(key.as_bytes())?;
            output.write_all(b"=")
        }
        Form::Json => show_member_key(output, key),
    }
}

// Prints what follows a value.
fn end<W: Write>(output: &mut W, form: Form) -> io::Result<()> {
    match form {
        Form::Lines => output.write_all(b"\n"),
        Form::Json => Ok(()),
    }
}

// Prints a number's name as a member of its own.
fn show_name_member<W: Write>(output: &mut W, key: &str, name: &str) -> io::Result<()> {
    show_member_key(output, NameKey(key))?;
    put_string(output, name)
}

// The key of a number's name.
#[derive(Clone, Copy)]
struct NameKey<'a>(&'a str);

impl Text for NameKey<'_> {
    fn put_into<O, S: Sink<O>>(self, output: &mut O) -> Result<(), S::Error> {
        S::put_str(output, self.0)?;
        S::put_str(output, "_name")
    }
}

/// Prints a comma, the key of a member, and a colon.
pub(crate) fn show_member_key<T: Text, W: Write>(output: &mut W, key: T) -> io::Result<()> {
    output.write_all(b",")?;
    put_string(output, key)?;
    output.write_all(b":")
}
