// Made from crates/dns_fields/src/words.rt by rust/erase.
//! What stands in entries, by its text.

use crate::unread::{Unread, put_why};
use control_wire::inside::text::{Sink, put_hex, put_number};
use control_wire::record::classes::put_class;
use control_wire::record::{DataText, EdnsOption};
use packet_fields::Form;
use packet_fields::value::{Text, Value, put_text};
use rattle_std::io;
use rattle_std::io::Write;

// A text as the value of a field.
#[derive(Clone, Copy)]
pub(crate) struct Word<T>(pub(crate) T);

impl<T: Text> Value for Word<T> {
    fn put<W: Write>(self, output: &mut W, form: Form) -> io::Result<()> {
        put_text(output, form, self.0)
    }
}

// The data of a record.
#[derive(Clone, Copy)]
pub(crate) struct Data<'a>(pub(crate) &'a DataText<'a>);

impl Text for Data<'_> {
    fn put_into<O, S: Sink<O>>(self, output: &mut O) -> Result<(), S::Error> {
        self.0.put::<O, S>(output)
    }
}

// A class.
#[derive(Clone, Copy)]
pub(crate) struct Class(pub(crate) u16);

impl Text for Class {
    fn put_into<O, S: Sink<O>>(self, output: &mut O) -> Result<(), S::Error> {
        put_class::<O, S>(output, self.0)
    }
}

// What is wrong.
#[derive(Clone, Copy)]
pub(crate) struct Why(pub(crate) Unread);

impl Text for Why {
    fn put_into<O, S: Sink<O>>(self, output: &mut O) -> Result<(), S::Error> {
        put_why::<O, S>(output, self.0)
    }
}

// An option: its name or its number, and its data.
#[derive(Clone, Copy)]
pub(crate) struct OptionWord<'a>(pub(crate) EdnsOption<'a>);

impl Text for OptionWord<'_> {
    fn put_into<O, S: Sink<O>>(self, output: &mut O) -> Result<(), S::Error> {
        put_option_name::<O, S>(output, &self.0)?;
        S::put_str(output, ":")?;
        put_hex::<O, S>(output, self.0.data)
    }
}

fn put_option_name<O, S: Sink<O>>(output: &mut O, option: &EdnsOption<'_>) -> Result<(), S::Error> {
    match option.name() {
        Some(name) => S::put_str(output, name),
        None => put_number::<O, S>(output, u64::from(option.code)),
    }
}
