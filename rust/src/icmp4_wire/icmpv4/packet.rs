// Made from crates/icmp4_wire/src/icmpv4/packet.rt by rust/erase.
//! The view of a message (RFC 792).

use super::field;
use super::repr::Repr;
use super::tables::Message;
use super::unread::Unread;
use crate::wirebase::{ChecksumCapabilities, Error, Octets, OctetsMut, Result, checksum};
use core::fmt;

/// A view of the octets of a message.
#[derive(Debug, Clone)]
pub struct Packet<T: Octets> {
    pub(super) buffer: T,
}

impl<T: Octets> Packet<T> {
    /// Makes a view of `buffer`; its length is not checked.
    pub const fn new_unchecked(buffer: T) -> Packet<T> {
        Packet { buffer }
    }

    /// Makes a view of `buffer`. Refused where it has fewer than 8 octets. On refusal the buffer is dropped: to keep a
    /// `&mut [u8]`, call `new_unchecked` and then `check_len`.
    pub fn new_checked(buffer: T) -> Result<Packet<T>> {
        let packet = Packet::new_unchecked(buffer);
        packet.check_len()?;
        Ok(packet)
    }

    /// Accepts 8 octets or more. Then each accessor may be called.
    pub fn check_len(&self) -> Result<()> {
        if self.buffer.octets().len() < field::HEADER_END {
            return Err(Error);
        }
        Ok(())
    }

    /// Returns the buffer of the view.
    pub fn into_inner(self) -> T {
        self.buffer
    }

    /// All the octets.
    pub fn as_ref(&self) -> &[u8] {
        self.buffer.octets()
    }

    /// The type. Requires at least 1 byte.
    ///
    /// # Panics
    ///
    /// May panic where what is asked for above does not hold.
    pub fn msg_type(&self) -> Message {
        Message::from(self.buffer.u8_at(field::TYPE))
    }

    /// The code. Requires at least 2 bytes.
    ///
    /// # Panics
    ///
    /// May panic where what is asked for above does not hold.
    pub fn msg_code(&self) -> u8 {
        self.buffer.u8_at(field::CODE)
    }

    /// The checksum that the message carries. Requires at least 4 bytes.
    ///
    /// # Panics
    ///
    /// May panic where what is asked for above does not hold.
    pub fn checksum(&self) -> u16 {
        self.buffer.u16_at(field::CHECKSUM)
    }

    /// The identifier of an echo. Requires at least 6 bytes.
    ///
    /// # Panics
    ///
    /// May panic where what is asked for above does not hold.
    pub fn echo_ident(&self) -> u16 {
        self.buffer.u16_at(field::ECHO_IDENT)
    }

    /// The sequence number of an echo. Requires at least 8 bytes.
    ///
    /// # Panics
    ///
    /// May panic where what is asked for above does not hold.
    pub fn echo_seq_no(&self) -> u16 {
        self.buffer.u16_at(field::ECHO_SEQNO)
    }

    /// The bytes of the header, 8 for every type. Requires at least 1 byte.
    ///
    /// # Panics
    ///
    /// May panic where what is asked for above does not hold.
    pub fn header_len(&self) -> usize {
        field::HEADER_END
    }

    /// Whether all the octets together carry their checksum (RFC 1071).
    pub fn verify_checksum(&self) -> bool {
        checksum::is_good(self.buffer.octets(), 0)
    }
}

impl<'a, B: AsRef<[u8]> + ?Sized> Packet<&'a B> {
    /// What follows the header, for as long as the octets live. Requires at least 8 bytes.
    ///
    /// # Panics
    ///
    /// May panic where what is asked for above does not hold.
    pub fn data(&self) -> &'a [u8] {
        &self.buffer.as_ref()[field::HEADER_END..]
    }
}

impl<T: OctetsMut> Packet<T> {
    /// Writes the type. Requires at least 1 byte.
    ///
    /// # Panics
    ///
    /// May panic where what is asked for above does not hold.
    pub fn set_msg_type(&mut self, value: Message) {
        self.buffer.set_u8(field::TYPE, value.into());
    }

    /// Writes the code. Requires at least 2 bytes.
    ///
    /// # Panics
    ///
    /// May panic where what is asked for above does not hold.
    pub fn set_msg_code(&mut self, value: u8) {
        self.buffer.set_u8(field::CODE, value);
    }

    /// Writes the checksum. Requires at least 4 bytes.
    ///
    /// # Panics
    ///
    /// May panic where what is asked for above does not hold.
    pub fn set_checksum(&mut self, value: u16) {
        self.buffer.set_u16(field::CHECKSUM, value);
    }

    /// Writes the identifier of an echo. Requires at least 6 bytes.
    ///
    /// # Panics
    ///
    /// May panic where what is asked for above does not hold.
    pub fn set_echo_ident(&mut self, value: u16) {
        self.buffer.set_u16(field::ECHO_IDENT, value);
    }

    /// Writes the sequence number of an echo. Requires at least 8 bytes.
    ///
    /// # Panics
    ///
    /// May panic where what is asked for above does not hold.
    pub fn set_echo_seq_no(&mut self, value: u16) {
        self.buffer.set_u16(field::ECHO_SEQNO, value);
    }

    /// Writes the checksum of all the octets, in which its field counts as zero (RFC 1071). Requires at least 4 bytes.
    ///
    /// # Panics
    ///
    /// May panic where what is asked for above does not hold.
    pub fn fill_checksum(&mut self) {
        checksum::fill(self.buffer.octets_mut(), field::CHECKSUM, 0);
    }

    /// Lends what follows the header for writing; the header is unchanged. Requires at least 8 bytes.
    ///
    /// # Panics
    ///
    /// May panic where what is asked for above does not hold.
    pub fn data_mut(&mut self) -> &mut [u8] {
        let len = self.buffer.octets().len();
        self.buffer.range_mut(field::HEADER_END, len)
    }
}

/// Views are equal where their octets are equal.
impl<T: Octets> PartialEq for Packet<T> {
    fn eq(&self, other: &Packet<T>) -> bool {
        self.buffer.octets() == other.buffer.octets()
    }
}

impl<T: Octets> Eq for Packet<T> {}

/// Prints the message in the octets, its checksum verified; where they are refused, `ICMPv4 (wire::Error)`, and after
/// that their type and their code by name, where they have both.
impl<T: Octets> fmt::Display for Packet<T> {
    fn fmt(&self, f: &mut fmt::Formatter<'_>) -> fmt::Result {
        let packet = Packet::new_unchecked(self.buffer.octets());
        match Repr::parse(&packet, &ChecksumCapabilities::default()) {
            Ok(repr) => write!(f, "{repr}"),
            Err(_) => packet.fmt_unread(f),
        }
    }
}

impl<B: AsRef<[u8]> + ?Sized> Packet<&B> {
    // Prints octets that are refused.
    fn fmt_unread(&self, f: &mut fmt::Formatter<'_>) -> fmt::Result {
        if self.buffer.as_ref().len() < field::CODE.end {
            return write!(f, "ICMPv4 (wire::Error)");
        }
        let unread = Unread {
            kind: self.msg_type(),
            code: self.msg_code(),
        };
        write!(f, "{unread}")
    }
}
