// Made from crates/opt_wire/src/ipv6option/refusal.rt by rust/erase.
//! Why octets are refused as an option (RFC 8200 section 4.2, RFC 2711 section 2.1).

use super::{Ipv6Option, Repr, RouterAlert, Type, field};
use core::fmt;

/// Why [`Repr::parse`] refuses octets as an option: the first check that fails.
#[derive(Debug, PartialEq, Eq, Clone, Copy)]
#[non_exhaustive]
pub enum Refusal {
    /// No bytes.
    Empty,
    /// A type other than Pad1, without a length after it.
    Short,
    /// Fewer bytes than the length counts, which is this number of bytes, with the type and the length.
    Cut(usize),
    /// A length, in bytes, that the type does not allow: a router alert of other than 2 bytes of data.
    Length(Type, u8),
}

impl<'a> Repr<'a> {
    /// Why [`Repr::parse`] refuses these octets, by the first check that fails; None exactly where it reads them.
    pub fn refusal<B: AsRef<[u8]> + ?Sized>(opt: &Ipv6Option<&'a B>) -> Option<Refusal> {
        match Repr::parse(opt) {
            Ok(_) => None,
            Err(_) => Some(why_none(opt)),
        }
    }
}

// The first check that fails in octets that don't begin with an option.
fn why_none<B: AsRef<[u8]> + ?Sized>(opt: &Ipv6Option<&B>) -> Refusal {
    let len = opt.buffer.as_ref().len();
    if len == 0 {
        return Refusal::Empty;
    }
    if len < field::LENGTH.end {
        return Refusal::Short;
    }
    let end = field::data(opt.data_len()).end;
    if len < end {
        return Refusal::Cut(end);
    }
    Refusal::Length(Type::RouterAlert, opt.data_len())
}

// The octets after the option at the front, or why they don't begin with an option.

pub(crate) fn behind_first(octets: &[u8]) -> Result<&[u8], Refusal> {
    let opt = Ipv6Option::new_unchecked(octets);
    match Repr::parse(&opt) {
        Ok(repr) => Ok(&octets[repr.buffer_len()..]),
        Err(_) => Err(why_none(&opt)),
    }
}

/// A short phrase, as `a length of 3 is not allowed for RouterAlert`.
impl fmt::Display for Refusal {
    fn fmt(&self, f: &mut fmt::Formatter<'_>) -> fmt::Result {
        match *self {
            Refusal::Empty => f.write_str("no bytes"),
            Refusal::Short => f.write_str("a type without a length"),
            Refusal::Cut(len) => write!(f, "fewer than the {len} bytes that the option counts"),
            Refusal::Length(type_, length) => {
                write!(f, "a length of {length} is not allowed for {type_}")
            }
        }
    }
}
