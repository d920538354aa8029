// Made from crates/quote_wire/src/error.rt by rust/erase.
//! What the errors of both protocols have in common: why octets are refused, and how an error is written.

use crate::quotes::quote;
use crate::wirebase::{ByteWriter, icmp};
use core::fmt;

/// Why `Repr::parse` refuses octets as an error: the check that fails first.
#[derive(Debug, PartialEq, Eq, Clone, Copy)]
#[non_exhaustive]
pub enum Refusal {
    /// Fewer than 8 bytes.
    Short,
    /// The checksum is to be verified, and is wrong.
    Checksum,
    /// The type is not that of an error; this is its number.
    UnknownType(u8),
    /// What follows the header is not the start of an IPv4 datagram, or in ICMPv6 does not begin with an IPv6 header,
    /// for this reason.
    Quote(quote::Refusal),
}

/// The reason as a phrase.
impl fmt::Display for Refusal {
    fn fmt(&self, f: &mut fmt::Formatter<'_>) -> fmt::Result {
        match self {
            Refusal::Short => f.write_str("fewer than 8 bytes"),
            Refusal::Checksum => f.write_str("the checksum does not hold"),
            Refusal::UnknownType(number) => write!(f, "type {number} is not that of an error"),
            Refusal::Quote(why) => write!(f, "{why}"),
        }
    }
}

// Writes an error of this type at the start of the octets, cut at their end, with a checksum of zero. The callers cut
// what is quoted: with a parameter for the most bytes there are 26 bytes of code more at opt-level "z".
pub(crate) fn write_error(octets: &mut [u8], number: u8, code: u8, rest: u32, quoted: &[u8]) {
    put_error(&mut ByteWriter::new(octets), number, code, rest, quoted);
}

// Writes the error through a writer.
fn put_error(w: &mut ByteWriter<'_>, number: u8, code: u8, rest: u32, quoted: &[u8]) {
    icmp::put_header(w, number, code, rest.to_be_bytes());
    w.put_front(quoted);
}
