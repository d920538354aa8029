// Made from crates/icmp_fields/src/refusal.rt by rust/erase.
//! Why a message of a type that is known is refused.

use control_wire::inside::text::{Sink, put_number};
use packet_fields::Form;
use packet_fields::value::{Text, Value, put_text};
use rattle_std::io::Write;
use rattle_std::{fmt, io};

/// Why a message of 8 bytes or more, of a type that is known, is refused: the first check that fails. The checksum is
/// not looked at.
#[derive(Debug, PartialEq, Eq, Clone, Copy)]
pub enum Refusal {
    /// The code is not 0, in a message of ICMPv4 of another kind than an extended echo, nor 16 in an advertisement
    /// (RFC 5944 section 2.1): this is its number.
    Code(u8),
    /// Fewer bytes than a message of this type has.
    Length,
    /// An advertisement of no routers (RFC 1256 section 5.2).
    NoRouters,
    /// An advertisement whose entries have fewer than two words; this is their number.
    EntrySize(u8),
    /// An advertisement ends before its routers do, or an answer about a node within an address (RFC 4620 section 6.3):
    /// what there is of it is told by its fields.
    Cut,
}

/// How a message that is neither an error nor an echo is told.
#[derive(Debug, PartialEq, Eq, Clone, Copy)]
pub enum Told {
    /// By its fields.
    Fields,
    /// It is refused: by its octets, or by what there is of one whose entries are cut.
    Refused(Refusal),
    /// By its octets: it has fewer than 8, or a type of which no fields are told.
    Octets,
}

/// The reason, as a phrase.
impl fmt::Display for Refusal {
    fn fmt(&self, f: &mut fmt::Formatter<'_>) -> fmt::Result {
        match self {
            Refusal::Code(code) => write!(f, "code {code} is not 0"),
            Refusal::Length => write!(f, "fewer bytes than a message of this type has"),
            Refusal::NoRouters => write!(f, "an advertisement of no routers"),
            Refusal::EntrySize(words) => {
                write!(f, "entries of fewer than 2 words each ({words})")
            }
            Refusal::Cut => write!(f, "the entries are cut short"),
        }
    }
}

/// The same.
impl Text for Refusal {
    fn put_into<O, S: Sink<O>>(self, output: &mut O) -> Result<(), S::Error> {
        match self {
            Refusal::Code(code) => put_code::<O, S>(output, code),
            Refusal::Length => S::put_str(output, "fewer bytes than a message of this type has"),
            Refusal::NoRouters => S::put_str(output, "an advertisement of no routers"),
            Refusal::EntrySize(words) => put_size::<O, S>(output, words),
            Refusal::Cut => S::put_str(output, "the entries are cut short"),
        }
    }
}

impl Value for Refusal {
    fn put<W: Write>(self, output: &mut W, form: Form) -> io::Result<()> {
        put_text(output, form, self)
    }
}

fn put_code<O, S: Sink<O>>(output: &mut O, code: u8) -> Result<(), S::Error> {
    S::put_str(output, "code ")?;
    put_number::<O, S>(output, code as u64)?;
    S::put_str(output, " is not 0")
}

fn put_size<O, S: Sink<O>>(output: &mut O, words: u8) -> Result<(), S::Error> {
    S::put_str(output, "entries of fewer than 2 words each (")?;
    put_number::<O, S>(output, words as u64)?;
    S::put_str(output, ")")
}
