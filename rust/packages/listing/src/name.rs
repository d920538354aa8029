// Made from crates/listing/src/name.rt by rust/erase.
//! Names of DNS messages.

use crate::printer::{field, line};
use control_wire::dns::{NameIter, Packet};
use rattle_std::io;
use rattle_std::io::Write;

/// Prints the labels of the name that begins at an offset of a message, and how the walk over it ends.
pub fn show_name<W: Write>(output: &mut W, offset: usize, message: &[u8]) -> io::Result<()> {
    let slice = from(message, offset);
    show_labels(output, Packet::new_unchecked(message).parse_name(slice))
}

// The octets from an offset on, none from the end on.
fn from(octets: &[u8], offset: usize) -> &[u8] {
    if offset > octets.len() {
        return &[];
    }
    &octets[offset..]
}

// Prints the results of a walk.
fn show_labels<W: Write>(output: &mut W, mut labels: NameIter<'_>) -> io::Result<()> {
    loop {
        match labels.next() {
            Some(Ok(label)) => line(output, label)?,
            Some(Err(_)) => return field(output, "error steps", labels.steps()),
            None => return field(output, "end steps", labels.steps()),
        }
    }
}
