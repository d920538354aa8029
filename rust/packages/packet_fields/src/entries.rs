// Made from crates/packet_fields/src/entries.rt by rust/erase.
//! Entries of lists whose octets are not told apart.

use crate::entry::{close_entry, first_cell, hidden_number, keyed_cell, open_entry};
use crate::form::Form;
use crate::label::Label;
use rattle_std::io;
use rattle_std::io::Write;

/// Prints an entry by its octets, with why it is refused where it is; its number is the label's.
pub fn show_octets<W: Write>(
    output: &mut W,
    form: Form,
    is_first: bool,
    label_key: &str,
    label: Label<'_>,
    data: &[u8],
    refused: Option<&str>,
) -> io::Result<()> {
    open_entry(output, form, is_first, label_key, label)?;
    first_cell(output, form, "data", data)?;
    show_refused(output, form, refused)?;
    hidden_number(output, form, "type", label.number as u64)?;
    close_entry(output, form)
}

// Prints why an entry is refused, where it is.
fn show_refused<W: Write>(output: &mut W, form: Form, refused: Option<&str>) -> io::Result<()> {
    match refused {
        Some(why) => keyed_cell(output, form, "refused", why),
        None => Ok(()),
    }
}
