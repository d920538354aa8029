// Made from crates/record_wire/src/text/refusal.rt by rust/erase.
//! Why a record has no text: the check that fails first.

use crate::record::name::refusal::NameRefusal;
use crate::record::rdata::refusal::DataRefusal;
use crate::wirebase::text::{Sink, ToFormatter};
use core::{fmt, result};

/// Why [`crate::record::Record::text`] refuses a record: the check that fails first.
#[derive(Debug, PartialEq, Eq, Clone, Copy)]
#[non_exhaustive]
pub enum TextRefusal {
    /// The record's name can't be read.
    Owner(NameRefusal),
    /// The data is not laid out as the record's type and class have it.
    Data(DataRefusal),
    /// A name in the data can't be read: of two, the first such.
    DataName(NameRefusal),
}

/// What is wrong with the record.
impl fmt::Display for TextRefusal {
    fn fmt(&self, f: &mut fmt::Formatter<'_>) -> fmt::Result {
        self.put::<_, ToFormatter>(f)
    }
}

impl TextRefusal {
    /// Puts what is wrong with the record.
    pub fn put<O, S: Sink<O>>(&self, output: &mut O) -> result::Result<(), S::Error> {
        match self {
            TextRefusal::Owner(refusal) => {
                S::put_str(output, "the owner: ")?;
                refusal.put::<O, S>(output)
            }
            TextRefusal::Data(refusal) => {
                S::put_str(output, "the data: ")?;
                refusal.put::<O, S>(output)
            }
            TextRefusal::DataName(refusal) => {
                S::put_str(output, "a name in the data: ")?;
                refusal.put::<O, S>(output)
            }
        }
    }
}
