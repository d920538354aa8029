// Made from crates/record_wire/src/name/refusal.rt by rust/erase.
//! Why names are refused: the check that fails first.

use crate::dns_wire::dns::Packet;
use crate::dns_wire::octets::octets_of;
use crate::record::name::{Name, put_name};
use crate::record::refusal::PartRefusal;
use crate::wirebase::text::{Sink, ToFormatter, put_number};
use arrayvec::ArrayVec;
use core::{fmt, result};

/// Why [`crate::record::Name::read`] refuses octets and their message: the check that fails first.
#[derive(Debug, PartialEq, Eq, Clone, Copy)]
#[non_exhaustive]
pub enum NameRefusal {
    /// The name is cut, or has a label of another kind.
    Part(PartRefusal),
    /// A pointer to this place leads nowhere or in a circle: out of the message, or, after another pointer, not to
    /// below the place that the one before it led to (RFC 1035 section 4.1.4).
    Pointer(usize),
    /// The name has more than [`crate::record::name::MAX_POINTERS`] pointers, with or without labels between them.
    TooManyPointers,
    /// The name has more than 255 octets (RFC 1035 section 2.3.4).
    TooLong,
}

/// What is wrong with the name.
impl fmt::Display for NameRefusal {
    fn fmt(&self, f: &mut fmt::Formatter<'_>) -> fmt::Result {
        self.put::<_, ToFormatter>(f)
    }
}

impl NameRefusal {
    /// Puts what is wrong with the name.
    pub fn put<O, S: Sink<O>>(&self, output: &mut O) -> result::Result<(), S::Error> {
        match self {
            NameRefusal::Part(refusal) => refusal.put::<O, S>(output),
            NameRefusal::Pointer(place) => {
                S::put_str(output, "a pointer to place ")?;
                put_number::<O, S>(output, *place as u64)?;
                S::put_str(output, " leads nowhere or round")
            }
            NameRefusal::TooManyPointers => {
                S::put_str(output, "the name follows more than 127 pointers")
            }
            NameRefusal::TooLong => S::put_str(output, "the name has more than 255 octets"),
        }
    }
}

impl Name {
    /// The name, as [`Name::read`] reads it, or why it is refused, as [`Name::read_refusal`] tells: the check that
    /// fails first.
    pub fn read_or_refusal<'a, B: AsRef<[u8]> + ?Sized>(
        packet: &Packet<&'a B>,
        bytes: &'a [u8],
    ) -> result::Result<Name, NameRefusal> {
        read_name(octets_of(packet), bytes)
    }
}

/// The name that begins in `bytes` and goes on in a message, or why it is refused. Inlined: a name is large, and would
/// be copied.
#[inline(always)]
pub(super) fn read_name(message: &[u8], bytes: &[u8]) -> result::Result<Name, NameRefusal> {
    let mut octets = ArrayVec::new();
    match put_name(&mut octets, message, bytes) {
        Ok(()) => Ok(Name { octets }),
        Err(refusal) => Err(refusal),
    }
}
