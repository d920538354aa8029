// Made from crates/dns_wire/src/dns/repr.rt by rust/erase.
//! A query (RFC 1035 section 4.1).

use crate::dns_wire::dns::packet::{HEADER_LEN, Packet};
use crate::dns_wire::dns::question::{Question, put_pair};
use crate::dns_wire::dns::tables::{Flags, Opcode};
use crate::wirebase::{ByteWriter, OctetsMut};

/// A query of one question.
#[derive(Debug, PartialEq, Eq, Clone, Copy)]
pub struct Repr<'a> {
    /// The number by which a response is matched to the query.
    pub transaction_id: u16,
    /// The kind of query.
    pub opcode: Opcode,
    /// The flags of the header.
    pub flags: Flags,
    /// The question.
    pub question: Question<'a>,
}

impl<'a> Repr<'a> {
    /// The bytes that the query takes: those of the header, 12, and of the question. Requires that they fit a `usize`.
    ///
    /// # Panics
    ///
    /// May panic where what is asked for above does not hold.
    pub const fn buffer_len(&self) -> usize {
        HEADER_LEN + self.question.buffer_len()
    }

    /// Writes the query over the front of the octets; the other octets are unchanged. Requires as many octets as it
    /// takes, flags that have a name, and a kind of query below 16.
    ///
    /// # Panics
    ///
    /// May panic where what is asked for above does not hold.
    pub fn emit<T: OctetsMut>(&self, packet: &mut Packet<T>) {
        self.emit_into(packet.buffer.octets_mut());
    }

    /// Like `emit`, but writes into a slice.
    ///
    /// # Panics
    ///
    /// May panic where what is asked for above does not hold.
    pub fn emit_into(&self, octets: &mut [u8]) {
        self.write(octets);
    }

    // Writes the text of the query.
    fn write(&self, octets: &mut [u8]) {
        let mut w = ByteWriter::new(octets);
        self.put(&mut w);
    }

    // Writes each field of the query.
    fn put(&self, w: &mut ByteWriter<'_>) {
        put_pair(w, self.transaction_id, word_of(self.flags, self.opcode));
        // One question, and no records of any section.
        put_pair(w, 1, 0);
        put_pair(w, 0, 0);
        self.question.put(w);
    }
}

// The word of flags.
fn word_of(flags: Flags, opcode: Opcode) -> u16 {
    flags.bits() + 2048 * u8::from(opcode) as u16
}
