// Made from crates/dns_wire/src/dns/question.rt by rust/erase.
//! A question of a message (RFC 1035 section 4.1.2).

use crate::dns_wire::dns::part::read_part;
use crate::dns_wire::dns::refusal::Refusal;
use crate::dns_wire::dns::tables::Type;
use crate::wirebase::{ByteWriter, Error, Octets};

// The fields after the name of a question.
mod field {
    use crate::wirebase::Field;

    pub const TYPE: Field = 0..2;

    pub const CLASS: Field = 2..4;

    pub const END: usize = 4;
}

/// The class of the internet (RFC 1035 section 3.2.4).
pub(crate) const CLASS_IN: u16 = 1;

/// A question: the records of one type at a name (RFC 1035 section 4.1.2).
#[derive(Debug, PartialEq, Eq, Clone, Copy)]
pub struct Question<'a> {
    /// The name as it is written: labels of 1 to 63 bytes, each after its length, and then byte 0 or a pointer.
    pub name: &'a [u8],
    /// The type of the records.
    pub type_: Type,
}

impl<'a> Question<'a> {
    /// The octets after the question at the front, and the question. Refused where the octets do not begin with a name
    /// of one part, a type and the class of the internet.
    pub fn parse(buffer: &'a [u8]) -> crate::wirebase::Result<(&'a [u8], Question<'a>)> {
        match Question::read(buffer) {
            Ok(read) => Ok(read),
            Err(_) => Err(Error),
        }
    }

    /// Why [`Question::parse`] refuses these octets, by the first check that fails; None where it reads them. A
    /// question has no data, so this is [`Refusal::Name`], [`Refusal::Short`] or [`Refusal::Class`].
    pub fn refusal(buffer: &[u8]) -> Option<Refusal> {
        match Question::read(buffer) {
            Ok(_) => None,
            Err(why) => Some(why),
        }
    }

    // The octets after the question at the front, and the question; or the first check that fails.
    #[inline(always)]
    fn read(buffer: &'a [u8]) -> Result<(&'a [u8], Question<'a>), Refusal> {
        let (name, after) = match read_part(buffer) {
            Ok(split) => split,
            Err(why) => return Err(Refusal::Name(why)),
        };
        if after.len() < field::END {
            return Err(Refusal::Short);
        }
        let class = after.u16_at(field::CLASS);
        if class != CLASS_IN {
            return Err(Refusal::Class(class));
        }
        let type_ = Type::from(after.u16_at(field::TYPE));
        Ok((&after[field::END..], Question { name, type_ }))
    }

    /// The bytes that the question takes: those of its name, and 4. Requires that they fit a `usize`.
    ///
    /// # Panics
    ///
    /// May panic where what is asked for above does not hold.
    pub const fn buffer_len(&self) -> usize {
        self.name.len() + field::END
    }

    /// Writes the question over the front of the octets; the other octets are unchanged. Requires as many octets as it
    /// takes.
    ///
    /// # Panics
    ///
    /// May panic where what is asked for above does not hold.
    pub fn emit(&self, packet: &mut [u8]) {
        self.write(packet);
    }

    // Writes the text of the question.
    fn write(&self, packet: &mut [u8]) {
        let mut w = ByteWriter::new(packet);
        self.put(&mut w);
    }

    // Writes each field of the question.
    pub(crate) fn put(&self, w: &mut ByteWriter<'_>) {
        w.put_bytes(self.name);
        put_pair(w, self.type_.into(), CLASS_IN);
    }
}

/// Writes two numbers of two bytes, in one write, since each write costs code.
///
/// # Panics
///
/// May panic where what is asked for above does not hold.
pub(crate) fn put_pair(w: &mut ByteWriter<'_>, first: u16, second: u16) {
    w.put_u32(0x1_0000 * first as u32 + second as u32);
}
