// Made from crates/opt_wire/src/ipv6ext_header/refusal.rt by rust/erase.
//! Why octets are refused as a header.

use super::{Header, Repr, end_of, field};
use core::fmt;

/// Why [`Repr::parse`] refuses octets as a header (RFC 8200 section 4.3): the first check that fails.
#[derive(Debug, PartialEq, Eq, Clone, Copy)]
#[non_exhaustive]
pub enum Refusal {
    /// Fewer than 8 bytes.
    Short,
    /// Fewer bytes than the length counts, which is this number of bytes, with the first 8.
    Cut(usize),
}

impl<'a> Repr<'a> {
    /// Why [`Repr::parse`] refuses these octets, by the first check that fails; None exactly where it reads them.
    pub fn refusal<B: AsRef<[u8]> + ?Sized>(header: &Header<&'a B>) -> Option<Refusal> {
        let len = header.buffer.as_ref().len();
        if len < field::MIN_END {
            return Some(Refusal::Short);
        }
        let end = end_of(header.header_len());
        if len < end {
            return Some(Refusal::Cut(end));
        }
        None
    }
}

/// A short phrase, as `fewer than 8 bytes`.
impl fmt::Display for Refusal {
    fn fmt(&self, f: &mut fmt::Formatter<'_>) -> fmt::Result {
        match *self {
            Refusal::Short => f.write_str("fewer than 8 bytes"),
            Refusal::Cut(len) => write!(f, "fewer than the {len} bytes that the header counts"),
        }
    }
}

/// The fields, and the bytes of the payload, as `IPv6 Extension Header next_header=58 length=0 len=6`.
impl fmt::Display for Repr<'_> {
    fn fmt(&self, f: &mut fmt::Formatter<'_>) -> fmt::Result {
        let number = u8::from(self.next_header);
        let len = self.data.len();
        write!(
            f,
            "IPv6 Extension Header next_header={number} length={} len={len}",
            self.length
        )
    }
}
