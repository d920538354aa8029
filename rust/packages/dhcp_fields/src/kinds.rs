// Made from crates/dhcp_fields/src/kinds.rt by rust/erase.
//! Kinds of options, as numbers.

use control_wire::inside::text::put_number;
use packet_fields::Form;
use packet_fields::output::ToWriter;
use packet_fields::value::Value;
use rattle_std::io;
use rattle_std::io::Write;

// Kinds of options, of one byte each.
#[derive(Clone, Copy)]
pub(crate) struct Kinds<'a>(pub(crate) &'a [u8]);

impl Value for Kinds<'_> {
    fn put<W: Write>(self, output: &mut W, form: Form) -> io::Result<()> {
        numbers_fit(self.0);
        match form {
            Form::Lines => put_line(output, self.0),
            Form::Json => put_array(output, self.0),
        }
    }
}

/// Does nothing; its contract states that kinds have at most 64 bits each.
pub(crate) fn numbers_fit(kinds: &[u8]) {}

// Prints kinds with commas between them, or a dash for none.
fn put_line<W: Write>(output: &mut W, kinds: &[u8]) -> io::Result<()> {
    if kinds.is_empty() {
        return output.write_all(b"-");
    }
    put_numbers(output, kinds)
}

// Prints kinds as an array.
fn put_array<W: Write>(output: &mut W, kinds: &[u8]) -> io::Result<()> {
    output.write_all(b"[")?;
    put_numbers(output, kinds)?;
    output.write_all(b"]")
}

fn put_numbers<W: Write>(output: &mut W, kinds: &[u8]) -> io::Result<()> {
    let Some((first, rest)) = kinds.split_first() else {
        return Ok(());
    };
    put_number::<_, ToWriter>(output, *first as u64)?;
    put_behind_commas(output, rest)
}

fn put_behind_commas<W: Write>(output: &mut W, kinds: &[u8]) -> io::Result<()> {
    for kind in kinds {
        put_behind_comma(output, *kind)?;
    }
    Ok(())
}

fn put_behind_comma<W: Write>(output: &mut W, kind: u8) -> io::Result<()> {
    output.write_all(b",")?;
    put_number::<_, ToWriter>(output, kind as u64)
}
