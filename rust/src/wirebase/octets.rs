// Made from crates/wirebase/src/octets.rt by rust/erase.
//! The octets under a view, and the parts of them that it reads, writes and lends.

use byteorder::{BigEndian, ByteOrder};
use core::ops::Range;

/// A field of a layout: its octets, from the first up to the one after the last.
pub type Field = Range<usize>;

/// What holds octets: all that lends a slice of them. The proofs are of `&[u8]` and `&mut [u8]`.
pub trait Octets {
    /// The slice itself.
    fn octets(&self) -> &[u8];

    /// The octets from one place up to another. Requires that `from` is at most `to`, and `to` at most the number of
    /// octets.
    ///
    /// # Panics
    ///
    /// May panic where what is asked for above does not hold.
    fn range(&self, from: usize, to: usize) -> &[u8] {
        &self.octets()[from..to]
    }

    /// The octets of a field. Requires that the field is within the octets.
    ///
    /// # Panics
    ///
    /// May panic where what is asked for above does not hold.
    fn field(&self, field: Field) -> &[u8] {
        self.range(field.start, field.end)
    }

    /// The octet in a field of one. Requires that the field is within the octets.
    ///
    /// # Panics
    ///
    /// May panic where what is asked for above does not hold.
    fn u8_at(&self, field: Field) -> u8 {
        self.range(field.start, field.end)[0]
    }

    /// The number in a field of two octets, the higher first. Requires that the field is within the octets.
    ///
    /// # Panics
    ///
    /// May panic where what is asked for above does not hold.
    fn u16_at(&self, field: Field) -> u16 {
        BigEndian::read_u16(self.range(field.start, field.end))
    }

    /// The number in a field of four octets, the highest first. Requires that the field is within the octets.
    ///
    /// # Panics
    ///
    /// May panic where what is asked for above does not hold.
    fn u32_at(&self, field: Field) -> u32 {
        BigEndian::read_u32(self.range(field.start, field.end))
    }
}

/// What holds octets that may be written: all that lends a slice of them so. The proofs are of `&mut [u8]`.
pub trait OctetsMut: Octets {
    /// Lends the octets from one place up to another for writing; the other octets are unchanged. Requires that `from`
    /// is at most `to`, and `to` at most the number of octets.
    ///
    /// # Panics
    ///
    /// May panic where what is asked for above does not hold.
    fn range_mut(&mut self, from: usize, to: usize) -> &mut [u8];

    /// Lends the octets of a field for writing; the other octets are unchanged. Requires that the field is within the
    /// octets.
    ///
    /// # Panics
    ///
    /// May panic where what is asked for above does not hold.
    fn field_mut(&mut self, field: Field) -> &mut [u8] {
        self.range_mut(field.start, field.end)
    }

    /// Lends all octets for writing.
    fn octets_mut(&mut self) -> &mut [u8] {
        let len = self.octets().len();
        self.range_mut(0, len)
    }

    /// Writes an octet into a field of one. Requires that the field is within the octets.
    ///
    /// # Panics
    ///
    /// May panic where what is asked for above does not hold.
    fn set_u8(&mut self, field: Field, value: u8) {
        self.range_mut(field.start, field.end)[0] = value;
    }

    /// Writes a number into a field of two octets, the higher first. Requires that the field is within the octets.
    ///
    /// # Panics
    ///
    /// May panic where what is asked for above does not hold.
    fn set_u16(&mut self, field: Field, value: u16) {
        BigEndian::write_u16(self.range_mut(field.start, field.end), value);
    }

    /// Writes a number into a field of four octets, the highest first. Requires that the field is within the octets.
    ///
    /// # Panics
    ///
    /// May panic where what is asked for above does not hold.
    fn set_u32(&mut self, field: Field, value: u32) {
        BigEndian::write_u32(self.range_mut(field.start, field.end), value);
    }

    /// Writes octets into a field of as many. Requires that the field is within the octets.
    ///
    /// # Panics
    ///
    /// May panic where what is asked for above does not hold.
    fn set_bytes(&mut self, field: Field, value: &[u8]) {
        self.range_mut(field.start, field.end)
            .copy_from_slice(value);
    }
}
