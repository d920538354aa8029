// Made from crates/icmp6_wire/src/ndisc/refusal.rt by rust/erase.
//! Why octets are refused as a message: the first check that fails.

use super::Repr;
use super::options_seen::split_block;
use crate::icmp6_wire::icmpv6::Packet;
use crate::opt_wire::writing::UNIT;
use core::fmt;

/// Why [`Repr::parse`] refuses octets as a message: the first check that fails. A place is counted in bytes from the
/// front of the message, and the length of an option in units of 8 bytes (RFC 4861 section 4.6).
#[derive(Debug, PartialEq, Eq, Clone, Copy)]
#[non_exhaustive]
pub enum Refusal {
    /// Fewer than 8 bytes.
    Short,
    /// The type, by its number, is not one of neighbor discovery.
    UnknownType(u8),
    /// Fewer bytes than the header of the type has.
    Length,
    /// The message ends before an option does.
    OptionCut {
        /// The type of the option.
        kind: u8,
        /// Its place.
        place: usize,
    },
    /// An option has length 0.
    OptionEmpty {
        /// The type of the option.
        kind: u8,
        /// Its place.
        place: usize,
    },
    /// A prefix has a length below 4, or a redirected packet a length below 6.
    OptionLength {
        /// The type of the option: 3 of a prefix, 4 of a redirected packet.
        kind: u8,
        /// Its length.
        units: u8,
        /// Its place.
        place: usize,
    },
}

impl fmt::Display for Refusal {
    fn fmt(&self, f: &mut fmt::Formatter<'_>) -> fmt::Result {
        match self {
            Refusal::Short => f.write_str("fewer than 8 bytes"),
            Refusal::UnknownType(number) => write!(f, "type {number} is not read"),
            Refusal::Length => f.write_str("fewer bytes than the header of its type"),
            Refusal::OptionCut { kind, place } => {
                write!(f, "the option of type {kind} at byte {place} is cut")
            }
            Refusal::OptionEmpty { kind, place } => {
                write!(f, "the option of type {kind} at byte {place} has length 0")
            }
            Refusal::OptionLength { kind, units, place } => {
                write!(
                    f,
                    "the option of type {kind} at byte {place} has length {units}, too short for its type"
                )
            }
        }
    }
}

impl Repr<'_> {
    /// Why [`Repr::parse`] refuses these octets, by the first check that fails; None where it reads them.
    pub fn refusal<B: AsRef<[u8]> + ?Sized>(packet: &Packet<&B>) -> Option<Refusal> {
        match Repr::read(packet) {
            Ok(_) => None,
            Err(why) => Some(why),
        }
    }
}

// Why the first option that is not whole, after a header of `header_len` bytes, is refused.
pub(super) fn why_option(octets: &[u8], header_len: usize) -> Refusal {
    let mut place = header_len;
    let mut rest = &octets[header_len..];
    while let Ok((block, behind)) = split_block(rest) {
        place += block.len();
        rest = behind;
    }
    fault(rest, place)
}

// What is wrong with the option at the front of `rest`, which begins at `place` in the message.
fn fault(rest: &[u8], place: usize) -> Refusal {
    let kind = rest[0];
    if rest.len() < UNIT {
        return Refusal::OptionCut { kind, place };
    }
    let units = rest[1];
    if rest.len() < UNIT * units as usize {
        return Refusal::OptionCut { kind, place };
    }
    if units == 0 {
        return Refusal::OptionEmpty { kind, place };
    }
    Refusal::OptionLength { kind, units, place }
}
