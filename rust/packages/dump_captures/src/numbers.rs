// Made from crates/dump_captures/src/numbers.rt by rust/erase.
//! Numbers with commas between them.

use packet_fields::Form;
use packet_fields::value::Value;
use rattle_std::io;
use rattle_std::io::Write;

/// Numbers, in lines with commas between them, and in JSON an array.
#[derive(Clone, Copy)]
pub struct Numbers<'a>(pub &'a [u64]);

impl Value for Numbers<'_> {
    fn put<W: Write>(self, output: &mut W, form: Form) -> io::Result<()> {
        all_fit(self.0);
        match form {
            Form::Lines => put_words(output, self.0),
            Form::Json => put_array(output, self.0),
        }
    }
}

// They have at most 64 bits. For proofs alone.
fn all_fit(list: &[u64]) {}

// Prints them with commas between them, or a dash for none.
fn put_words<W: Write>(output: &mut W, list: &[u64]) -> io::Result<()> {
    let [first, rest @ ..] = list else {
        return output.write_all(b"-");
    };
    first.put(output, Form::Lines)?;
    for next in rest {
        put_next(output, *next)?;
    }
    Ok(())
}

// Prints them as an array.
fn put_array<W: Write>(output: &mut W, list: &[u64]) -> io::Result<()> {
    let [first, rest @ ..] = list else {
        return output.write_all(b"[]");
    };
    output.write_all(b"[")?;
    first.put(output, Form::Json)?;
    for next in rest {
        put_next(output, *next)?;
    }
    output.write_all(b"]")
}

fn put_next<W: Write>(output: &mut W, number: u64) -> io::Result<()> {
    output.write_all(b",")?;
    number.put(output, Form::Lines)
}
