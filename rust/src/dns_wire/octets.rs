// Made from crates/dns_wire/src/octets.rt by rust/erase.
//! The octets under the view of a message, and the parts of the names in it, for the crates above.

use crate::dns_wire::dns::Packet;
pub use crate::dns_wire::dns::part::{NamePart, follow, read_front};

/// The octets of a message, for as long as they live.
#[inline]
pub fn octets_of<'a, B: AsRef<[u8]> + ?Sized>(packet: &Packet<&'a B>) -> &'a [u8] {
    packet.buffer.as_ref()
}
