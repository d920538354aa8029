// Made from crates/extension_wire/src/writer.rt by rust/erase.
//! What an error with extensions has behind its header, written (RFC 4884 sections 3 to 5, 7 and 8).

use crate::extensions::family::Family;
use crate::extensions::object::Object;
use crate::extensions::split::LEAST_QUOTE;
use crate::extensions::structure;
use crate::wirebase::ByteWriter;

/// What an error with extensions has behind its header of 8 bytes: the original datagram, padded, and an extension
/// structure with these objects. The error's own header has [`ErrorData::length`].
#[derive(Debug, PartialEq, Eq, Clone, Copy)]
pub struct ErrorData<'a> {
    /// The version of ICMP.
    pub family: Family,
    /// The original datagram, as much of it as is quoted.
    pub quoted: &'a [u8],
    /// The objects. RFC 4884 asks for one at least, and for payloads of whole 32 bit words.
    pub objects: &'a [Object<'a>],
}

impl<'a> ErrorData<'a> {
    /// The length that the error's header has (byte 5 of ICMPv4, byte 4 of ICMPv6): the words of the padded quote, of 4
    /// or of 8 bytes. Requires that it fits a byte: a quote of at most 1,020 bytes in ICMPv4, and 2,040 in ICMPv6.
    ///
    /// # Panics
    ///
    /// May panic where what is asked for above does not hold.
    pub fn length(&self) -> u8 {
        quoted_words(self.family, self.quoted.len()) as u8
    }

    /// The bytes that are written. Requires that they are fewer than 65,536, as a datagram's are.
    ///
    /// # Panics
    ///
    /// May panic where what is asked for above does not hold.
    pub fn buffer_len(&self) -> usize {
        padded_len(self.family, self.quoted.len()) + structure::buffer_len(self.objects)
    }

    /// Writes the quote, padded with zeros to whole words and to 128 bytes at least, and the extension structure with
    /// its checksum, over the front of the octets; the others are unchanged. Requires at least `buffer_len` bytes,
    /// which are fewer than 65,536, and a [`ErrorData::length`] that fits a byte.
    ///
    /// # Panics
    ///
    /// May panic where what is asked for above does not hold.
    pub fn emit_into(&self, octets: &mut [u8]) {
        let mut w = ByteWriter::new(octets);
        put_quoted(&mut w, self.family, self.quoted);
        put_structure(&mut w, self.objects);
    }
}

// The words of a quote of so many bytes with its padding.
fn quoted_words(family: Family, len: usize) -> usize {
    let least = if len < LEAST_QUOTE { LEAST_QUOTE } else { len };
    (least + family.unit() - 1) / family.unit()
}

// The bytes of a quote with its padding.
fn padded_len(family: Family, len: usize) -> usize {
    family.unit() * quoted_words(family, len)
}

// Writes a quote and its padding.
fn put_quoted(w: &mut ByteWriter<'_>, family: Family, quoted: &[u8]) {
    w.put_bytes(quoted);
    w.put_zeros(padded_len(family, quoted.len()) - quoted.len());
}

// Writes a structure.
fn put_structure(w: &mut ByteWriter<'_>, objects: &[Object<'_>]) {
    structure::emit(objects, w.part(structure::buffer_len(objects)));
}
