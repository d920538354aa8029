// Made from crates/icmp4_wire/src/igmp/packet.rt by rust/erase.
//! The view of a message (RFC 2236 section 2).

use super::field;
use super::repr::Repr;
use super::tables::Message;
use crate::wirebase::{Error, Ipv4Address, Octets, OctetsMut, Result, checksum};
use core::fmt;

/// A view of the octets of a message.
#[derive(Debug)]
pub struct Packet<T: Octets> {
    pub(super) buffer: T,
}

impl<T: Octets> Packet<T> {
    /// Makes a view of `buffer`; its length is not checked.
    pub const fn new_unchecked(buffer: T) -> Packet<T> {
        Packet { buffer }
    }

    /// Makes a view of `buffer`. Refused where it has fewer than 8 octets. On refusal the buffer is dropped: to keep a
    /// `&mut [u8]`, call `new_unchecked` and then `check_len`.
    pub fn new_checked(buffer: T) -> Result<Packet<T>> {
        let packet = Packet::new_unchecked(buffer);
        packet.check_len()?;
        Ok(packet)
    }

    /// Accepts 8 octets or more. Then each accessor may be called.
    pub fn check_len(&self) -> Result<()> {
        if self.buffer.octets().len() < field::GROUP_ADDRESS.end {
            return Err(Error);
        }
        Ok(())
    }

    /// Returns the buffer of the view.
    pub fn into_inner(self) -> T {
        self.buffer
    }

    /// The type. Requires at least 1 byte.
    ///
    /// # Panics
    ///
    /// May panic where what is asked for above does not hold.
    pub fn msg_type(&self) -> Message {
        Message::from(self.buffer.u8_at(field::TYPE))
    }

    /// The code of the maximum response time of a query (RFC 3376 section 4.1.1). Requires at least 2 bytes.
    ///
    /// # Panics
    ///
    /// May panic where what is asked for above does not hold.
    pub fn max_resp_code(&self) -> u8 {
        self.buffer.u8_at(field::MAX_RESP_CODE)
    }

    /// The checksum. Requires at least 4 bytes.
    ///
    /// # Panics
    ///
    /// May panic where what is asked for above does not hold.
    pub fn checksum(&self) -> u16 {
        self.buffer.u16_at(field::CHECKSUM)
    }

    /// The group of the message. Requires at least 8 bytes.
    ///
    /// # Panics
    ///
    /// May panic where what is asked for above does not hold.
    pub fn group_addr(&self) -> Ipv4Address {
        Ipv4Address::from_octets(self.buffer.field(field::GROUP_ADDRESS).try_into().unwrap())
    }

    /// Whether all the octets together carry their checksum (RFC 1071).
    pub fn verify_checksum(&self) -> bool {
        checksum::is_good(self.buffer.octets(), 0)
    }
}

impl<T: OctetsMut> Packet<T> {
    /// Writes the type. Requires at least 1 byte.
    ///
    /// # Panics
    ///
    /// May panic where what is asked for above does not hold.
    pub fn set_msg_type(&mut self, value: Message) {
        self.buffer.set_u8(field::TYPE, value.into());
    }

    /// Writes the code of the maximum response time of a query (RFC 3376 section 4.1.1). Requires at least 2 bytes.
    ///
    /// # Panics
    ///
    /// May panic where what is asked for above does not hold.
    pub fn set_max_resp_code(&mut self, value: u8) {
        self.buffer.set_u8(field::MAX_RESP_CODE, value);
    }

    /// Writes the checksum. Requires at least 4 bytes.
    ///
    /// # Panics
    ///
    /// May panic where what is asked for above does not hold.
    pub fn set_checksum(&mut self, value: u16) {
        self.buffer.set_u16(field::CHECKSUM, value);
    }

    /// Writes the group of the message. Requires at least 8 bytes.
    ///
    /// # Panics
    ///
    /// May panic where what is asked for above does not hold.
    pub fn set_group_address(&mut self, value: Ipv4Address) {
        self.buffer.set_bytes(field::GROUP_ADDRESS, &value.octets());
    }

    /// Writes the checksum of all the octets, in which its field counts as zero (RFC 1071). Requires at least 4 bytes.
    ///
    /// # Panics
    ///
    /// May panic where what is asked for above does not hold.
    pub fn fill_checksum(&mut self) {
        checksum::fill(self.buffer.octets_mut(), field::CHECKSUM, 0);
    }
}

/// Prints the message at the front of the octets, or `IGMP (wire::Error)` where they are refused.
impl<T: Octets> fmt::Display for Packet<T> {
    fn fmt(&self, f: &mut fmt::Formatter<'_>) -> fmt::Result {
        let packet = Packet::new_unchecked(self.buffer.octets());
        match Repr::parse(&packet) {
            Ok(repr) => write!(f, "{repr}"),
            Err(_) => write!(f, "IGMP (wire::Error)"),
        }
    }
}
