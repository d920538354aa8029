// Made from crates/icmp6_wire/src/mld/refusal.rt by rust/erase.
//! Why octets are refused as a message or as a record: the first check that fails.

use super::{AddressRecord, AddressRecordRepr, Repr};
use crate::icmp6_wire::icmpv6::Packet;
use core::fmt;

/// Why [`Repr::parse`] refuses octets as a message: the first check that fails.
#[derive(Debug, PartialEq, Eq, Clone, Copy)]
#[non_exhaustive]
pub enum Refusal {
    /// Fewer than 8 bytes.
    Short,
    /// The type, by its number, is neither that of a query nor that of a report.
    UnknownType(u8),
    /// Fewer bytes than the header of the type has: 28 of a query (RFC 3810 section 5.1).
    Length,
}

impl fmt::Display for Refusal {
    fn fmt(&self, f: &mut fmt::Formatter<'_>) -> fmt::Result {
        match self {
            Refusal::Short => f.write_str("fewer than 8 bytes"),
            Refusal::UnknownType(number) => write!(f, "type {number} is not read"),
            Refusal::Length => f.write_str("fewer bytes than the header of its type"),
        }
    }
}

/// Why [`AddressRecordRepr::parse`] refuses octets, or why [`Records`](super::Records) gives no record: the first check
/// that fails.
#[derive(Debug, PartialEq, Eq, Clone, Copy)]
#[non_exhaustive]
pub enum RecordRefusal {
    /// Fewer than 20 bytes.
    Short,
    /// Fewer bytes than the sources and the auxiliary data that the record counts. Only [`Records`](super::Records)
    /// gives this reason: `parse` does not compare the counts with the octets after the fields.
    Cut,
}

impl fmt::Display for RecordRefusal {
    fn fmt(&self, f: &mut fmt::Formatter<'_>) -> fmt::Result {
        match self {
            RecordRefusal::Short => f.write_str("fewer than 20 bytes"),
            RecordRefusal::Cut => {
                f.write_str("fewer bytes than its sources and its auxiliary data take")
            }
        }
    }
}

impl Repr<'_> {
    /// Why [`Repr::parse`] refuses these octets, by the first check that fails; None where it reads them.
    pub fn refusal<B: AsRef<[u8]> + ?Sized>(packet: &Packet<&B>) -> Option<Refusal> {
        match Repr::read(packet) {
            Ok(_) => None,
            Err(why) => Some(why),
        }
    }
}

impl AddressRecordRepr<'_> {
    /// Why [`AddressRecordRepr::parse`] refuses these octets, which is always [`RecordRefusal::Short`]; None where it
    /// reads a record at their front.
    pub fn refusal<B: AsRef<[u8]> + ?Sized>(view: &AddressRecord<&B>) -> Option<RecordRefusal> {
        match AddressRecordRepr::read(view) {
            Ok(_) => None,
            Err(_) => Some(RecordRefusal::Short),
        }
    }
}
