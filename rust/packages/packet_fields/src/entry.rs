// Made from crates/packet_fields/src/entry.rt by rust/erase.
//! Entries of lists: a line each, or an object of a JSON array.

use crate::field::show_member_key;
use crate::form::Form;
use crate::value::{Text, Value, put_string, put_text};
use rattle_std::io;
use rattle_std::io::Write;

/// Prints what precedes the entries of a list.
pub fn open_list<W: Write>(output: &mut W, form: Form, key: &str) -> io::Result<()> {
    match form {
        Form::Lines => Ok(()),
        Form::Json => {
            show_member_key(output, key)?;
            output.write_all(b"[")
        }
    }
}

/// Prints what follows the entries of a list.
pub fn close_list<W: Write>(output: &mut W, form: Form) -> io::Result<()> {
    match form {
        Form::Lines => Ok(()),
        Form::Json => output.write_all(b"]"),
    }
}

/// Prints what an entry begins with: what it is.
pub fn open_entry<L: Text, W: Write>(
    output: &mut W,
    form: Form,
    is_first: bool,
    label_key: &str,
    label: L,
) -> io::Result<()> {
    match form {
        Form::Lines => {
            output.write_all(b"  ")?;
            put_text(output, form, label)?;
            output.write_all(b"=")
        }
        Form::Json => {
            show_comma(output, is_first)?;
            output.write_all(b"{")?;
            put_string(output, label_key)?;
            output.write_all(b":")?;
            put_string(output, label)
        }
    }
}

// Prints a comma between objects.
fn show_comma<W: Write>(output: &mut W, is_first: bool) -> io::Result<()> {
    if is_first {
        return Ok(());
    }
    output.write_all(b",")
}

/// Prints the end of an entry.
pub fn close_entry<W: Write>(output: &mut W, form: Form) -> io::Result<()> {
    match form {
        Form::Lines => output.write_all(b"\n"),
        Form::Json => output.write_all(b"}"),
    }
}

/// Prints the first value of an entry.
pub fn first_cell<V: Value, W: Write>(
    output: &mut W,
    form: Form,
    key: &str,
    value: V,
) -> io::Result<()> {
    match form {
        Form::Lines => value.put(output, form),
        Form::Json => show_member(output, key, value),
    }
}

/// Prints a further value of an entry.
pub fn cell<V: Value, W: Write>(output: &mut W, form: Form, key: &str, value: V) -> io::Result<()> {
    before_cell(output, form, key)?;
    value.put(output, form)
}

/// Prints a further value of an entry, in lines too with its key.
pub fn keyed_cell<V: Value, W: Write>(
    output: &mut W,
    form: Form,
    key: &str,
    value: V,
) -> io::Result<()> {
    before_keyed_cell(output, form, key)?;
    value.put(output, form)
}

/// Prints a number of an entry that is shown in JSON alone.
pub fn hidden_number<W: Write>(
    output: &mut W,
    form: Form,
    key: &str,
    number: u64,
) -> io::Result<()> {
    show_hidden(output, form, key, number)
}

fn show_hidden<W: Write>(output: &mut W, form: Form, key: &str, number: u64) -> io::Result<()> {
    match form {
        Form::Lines => Ok(()),
        Form::Json => show_member(output, key, number),
    }
}

// Prints what precedes a further value.
fn before_cell<W: Write>(output: &mut W, form: Form, key: &str) -> io::Result<()> {
    match form {
        Form::Lines => output.write_all(b" "),
        Form::Json => show_member_key(output, key),
    }
}

fn before_keyed_cell<W: Write>(output: &mut W, form: Form, key: &str) -> io::Result<()> {
    match form {
        Form::Lines => show_key(output, key),
        Form::Json => show_member_key(output, key),
    }
}

fn show_key<W: Write>(output: &mut W, key: &str) -> io::Result<()> {
    output.write_all(b" ")?;
    output.write_all(key.as_bytes())?;
    output.write_all(b"=")
}

// Prints a member of an object.
fn show_member<V: Value, W: Write>(output: &mut W, key: &str, value: V) -> io::Result<()> {
    show_member_key(output, key)?;
    value.put(output, Form::Json)
}
