// Made from crates/packet_stats/src/words.rt by rust/erase.
//! Names, types of records and outcomes as the values of fields.

use control_wire::dns::Type;
use control_wire::inside::text::Sink;
use control_wire::record::Name;
use control_wire::record::types::put_type;
use dns_fields::header::{rcode_name, rcode_of};
use dns_fields::kind::Kind;
use packet_fields::Form;
use packet_fields::label::Label;
use packet_fields::value::{Text, Value, put_text};
use rattle_std::io;
use rattle_std::io::Write;

// A name as the value of a field.
#[derive(Clone, Copy)]
pub(crate) struct NameWord<'a>(pub(crate) &'a Name);

impl Text for NameWord<'_> {
    fn put_into<O, S: Sink<O>>(self, output: &mut O) -> Result<(), S::Error> {
        self.0.put_whole::<O, S>(output)
    }
}

impl Value for NameWord<'_> {
    fn put<W: Write>(self, output: &mut W, form: Form) -> io::Result<()> {
        put_text(output, form, self)
    }
}

// A type of records as the value of a field.
#[derive(Debug, PartialEq, Eq, Clone, Copy)]
pub(crate) struct TypeWord(pub(crate) Type);

impl Text for TypeWord {
    fn put_into<O, S: Sink<O>>(self, output: &mut O) -> Result<(), S::Error> {
        put_type::<O, S>(output, self.0)
    }
}

impl Value for TypeWord {
    fn put<W: Write>(self, output: &mut W, form: Form) -> io::Result<()> {
        put_text(output, form, self)
    }
}

// An outcome of DNS as the value of a field.
#[derive(Debug, PartialEq, Eq, Clone, Copy)]
pub(crate) struct RcodeWord(pub(crate) u16);

impl Text for RcodeWord {
    fn put_into<O, S: Sink<O>>(self, output: &mut O) -> Result<(), S::Error> {
        rcode_label(self.0).put_into::<O, S>(output)
    }
}

impl Value for RcodeWord {
    fn put<W: Write>(self, output: &mut W, form: Form) -> io::Result<()> {
        put_text(output, form, self)
    }
}

// The name of an outcome, or where it has none its number.
fn rcode_label(rcode: u16) -> Label<'static> {
    Label {
        name: rcode_name(Kind::Dns, rcode),
        kind: "rcode",
        number: rcode_of(rcode) as u8,
    }
}
