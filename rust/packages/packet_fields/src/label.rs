// Made from crates/packet_fields/src/label.rt by rust/erase.
//! What entries are called.

use crate::value::Text;
use control_wire::inside::text::{Sink, put_number};

/// What an entry is called: its name, or where it has none the kind of entry and its number, as `option_24`.
#[derive(Debug, Clone, Copy)]
pub struct Label<'a> {
    /// The name.
    pub name: Option<&'a str>,
    /// The kind of entry.
    pub kind: &'a str,
    /// The number.
    pub number: u8,
}

impl Text for Label<'_> {
    fn put_into<O, S: Sink<O>>(self, output: &mut O) -> Result<(), S::Error> {
        match self.name {
            Some(name) => S::put_str(output, name),
            None => put_numbered::<O, S>(output, self.kind, self.number),
        }
    }
}

// Puts a kind and a number behind it.
fn put_numbered<O, S: Sink<O>>(output: &mut O, kind: &str, number: u8) -> Result<(), S::Error> {
    S::put_str(output, kind)?;
    S::put_str(output, "_")?;
    put_number::<O, S>(output, number as u64)
}
