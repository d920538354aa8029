// Made from crates/dns_wire/src/dns/packet.rt by rust/erase.
//! The view of a DNS message.

use crate::dns_wire::dns::name::{self, NameIter};
use crate::dns_wire::dns::tables::{Flags, Opcode, Rcode};
use crate::wirebase::{Error, Octets, OctetsMut, Result};

// The fields of the header (RFC 1035 section 4.1.1).
mod field {
    use crate::wirebase::Field;

    pub const ID: Field = 0..2;

    pub const FLAGS: Field = 2..4;

    pub const QUESTION_COUNT: Field = 4..6;

    pub const ANSWER_COUNT: Field = 6..8;

    pub const AUTHORITY_COUNT: Field = 8..10;

    pub const ADDITIONAL_COUNT: Field = 10..12;
}

/// The bytes of the header.
pub(crate) const HEADER_LEN: usize = 12;

// The bits of the word of flags that are flags, and those that are the kind of query.
const FLAG_BITS: u16 = 0x87b0;

const OPCODE_BITS: u16 = 0x7800;

const OPCODE_SHIFT: u32 = 11;

/// A view of the octets of a message. It prints its header.
///
/// ```
/// use control_wire::dns::Packet;
///
/// let octets = b"\x12\x34\x01\x00\x00\x01\x00\x00\x00\x00\x00\x00\x07example\x03com\x00\x00\x01\x00\x01";
/// let packet = Packet::new_checked(&octets[..])?;
/// assert_eq!(
///     packet.to_string(),
///     "DNS id=4660 opcode=QUERY flags=rd rcode=NOERROR questions=1 answers=0 authorities=0 additionals=0",
/// );
/// # Ok::<(), control_wire::Error>(())
/// ```
#[derive(Debug)]
pub struct Packet<T: Octets> {
    pub(crate) buffer: T,
}

impl<T: Octets> Packet<T> {
    /// Makes a view of `buffer`; its length is not checked.
    pub const fn new_unchecked(buffer: T) -> Packet<T> {
        Packet { buffer }
    }

    /// Makes a view of `buffer`. Refused where it has fewer than 12 octets. On refusal the buffer is dropped: to keep a
    /// `&mut [u8]`, call `new_unchecked` and then `check_len`.
    pub fn new_checked(buffer: T) -> Result<Packet<T>> {
        let packet = Packet::new_unchecked(buffer);
        packet.check_len()?;
        Ok(packet)
    }

    /// Accepts 12 octets or more. Then each accessor may be called.
    pub fn check_len(&self) -> Result<()> {
        if self.buffer.octets().len() < HEADER_LEN {
            return Err(Error);
        }
        Ok(())
    }

    /// Returns the buffer of the view.
    pub fn into_inner(self) -> T {
        self.buffer
    }

    /// The number by which a response is matched to its query. Requires at least 2 bytes.
    ///
    /// # Panics
    ///
    /// May panic where what is asked for above does not hold.
    pub fn transaction_id(&self) -> u16 {
        self.buffer.u16_at(field::ID)
    }

    /// The flags that have a name. Requires at least 4 bytes.
    ///
    /// # Panics
    ///
    /// May panic where what is asked for above does not hold.
    pub fn flags(&self) -> Flags {
        Flags::from_bits_truncate(self.buffer.u16_at(field::FLAGS))
    }

    /// The kind of query. Requires at least 4 bytes.
    ///
    /// # Panics
    ///
    /// May panic where what is asked for above does not hold.
    pub fn opcode(&self) -> Opcode {
        let word = self.buffer.u16_at(field::FLAGS);
        Opcode::from((word >> OPCODE_SHIFT & 0xf) as u8)
    }

    /// The outcome of the query. Requires at least 4 bytes.
    ///
    /// # Panics
    ///
    /// May panic where what is asked for above does not hold.
    pub fn rcode(&self) -> Rcode {
        let word = self.buffer.u16_at(field::FLAGS);
        Rcode::from((word & 0xf) as u8)
    }

    /// How many questions there are. Requires at least 6 bytes.
    ///
    /// # Panics
    ///
    /// May panic where what is asked for above does not hold.
    pub fn question_count(&self) -> u16 {
        self.buffer.u16_at(field::QUESTION_COUNT)
    }

    /// How many records answer. Requires at least 8 bytes.
    ///
    /// # Panics
    ///
    /// May panic where what is asked for above does not hold.
    pub fn answer_record_count(&self) -> u16 {
        self.buffer.u16_at(field::ANSWER_COUNT)
    }

    /// How many records name an authority. Requires at least 10 bytes.
    ///
    /// # Panics
    ///
    /// May panic where what is asked for above does not hold.
    pub fn authority_record_count(&self) -> u16 {
        self.buffer.u16_at(field::AUTHORITY_COUNT)
    }

    /// How many more records there are. Requires at least 12 bytes.
    ///
    /// # Panics
    ///
    /// May panic where what is asked for above does not hold.
    pub fn additional_record_count(&self) -> u16 {
        self.buffer.u16_at(field::ADDITIONAL_COUNT)
    }

    /// The walk over the name that begins in `bytes`, a part of the message or not, and goes on where its pointers
    /// lead in the message (RFC 1035 section 4.1.4). The first pointer leads to any place of the message, and each
    /// later one to below the place that the one before it led to. Requires nothing of the message.
    #[inline]
    pub fn parse_name<'a>(&'a self, bytes: &'a [u8]) -> NameIter<'a> {
        name::walk(self.buffer.octets(), bytes)
    }
}

impl<'a, B: AsRef<[u8]> + ?Sized> Packet<&'a B> {
    /// The questions and records, for as long as the octets live. Requires at least 12 bytes.
    ///
    /// # Panics
    ///
    /// May panic where what is asked for above does not hold.
    pub fn payload(&self) -> &'a [u8] {
        &self.buffer.as_ref()[HEADER_LEN..]
    }
}

impl<T: OctetsMut> Packet<T> {
    /// Writes the number by which a response is matched to its query. Requires at least 2 bytes.
    ///
    /// # Panics
    ///
    /// May panic where what is asked for above does not hold.
    pub fn set_transaction_id(&mut self, value: u16) {
        self.buffer.set_u16(field::ID, value);
    }

    /// Writes the flags; the kind of query, the outcome and the bit that has no name stay. Requires at least 4 bytes,
    /// and flags that have a name.
    ///
    /// # Panics
    ///
    /// May panic where what is asked for above does not hold.
    pub fn set_flags(&mut self, value: Flags) {
        let word = self.buffer.u16_at(field::FLAGS);
        self.buffer
            .set_u16(field::FLAGS, (word & !FLAG_BITS) | value.bits());
    }

    /// Writes the kind of query; the flags and the outcome stay. Requires at least 4 bytes, and a number below 16.
    ///
    /// # Panics
    ///
    /// May panic where what is asked for above does not hold.
    pub fn set_opcode(&mut self, value: Opcode) {
        let word = self.buffer.u16_at(field::FLAGS);
        let opcode = u8::from(value) as u16;
        self.buffer
            .set_u16(field::FLAGS, (word & !OPCODE_BITS) | opcode << OPCODE_SHIFT);
    }

    /// Writes how many questions there are. Requires at least 6 bytes.
    ///
    /// # Panics
    ///
    /// May panic where what is asked for above does not hold.
    pub fn set_question_count(&mut self, value: u16) {
        self.buffer.set_u16(field::QUESTION_COUNT, value);
    }

    /// Writes how many records answer. Requires at least 8 bytes.
    ///
    /// # Panics
    ///
    /// May panic where what is asked for above does not hold.
    pub fn set_answer_record_count(&mut self, value: u16) {
        self.buffer.set_u16(field::ANSWER_COUNT, value);
    }

    /// Writes how many records name an authority. Requires at least 10 bytes.
    ///
    /// # Panics
    ///
    /// May panic where what is asked for above does not hold.
    pub fn set_authority_record_count(&mut self, value: u16) {
        self.buffer.set_u16(field::AUTHORITY_COUNT, value);
    }

    /// Writes how many more records there are. Requires at least 12 bytes.
    ///
    /// # Panics
    ///
    /// May panic where what is asked for above does not hold.
    pub fn set_additional_record_count(&mut self, value: u16) {
        self.buffer.set_u16(field::ADDITIONAL_COUNT, value);
    }

    /// Lends the questions and records for writing; the header is unchanged. Requires at least 12 bytes.
    ///
    /// # Panics
    ///
    /// May panic where what is asked for above does not hold.
    pub fn payload_mut(&mut self) -> &mut [u8] {
        let len = self.buffer.octets().len();
        self.buffer.range_mut(HEADER_LEN, len)
    }
}

/// Views are equal where their octets are equal.
impl<T: Octets> PartialEq for Packet<T> {
    fn eq(&self, other: &Packet<T>) -> bool {
        self.buffer.octets() == other.buffer.octets()
    }
}

impl<T: Octets> Eq for Packet<T> {}
