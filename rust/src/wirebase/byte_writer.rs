// Made from crates/wirebase/src/byte_writer.rt by rust/erase.
//! A writer of bytes.

use crate::wirebase::octets::OctetsMut;
use byteorder::{BigEndian, ByteOrder};

/// A writer from the front of its target on.
pub struct Cursor<T> {
    buffer: T,
    position: usize,
}

/// Writes bytes into a lent slice, one after another from its front on, as the library itself does.
///
/// | Call | What it does |
/// |---|---|
/// | `ByteWriter::new(slice)` | a writer over the slice, all of whose bytes are free |
/// | `free()` | the number of bytes that are free |
/// | `put_bytes(bytes)` | writes the bytes |
/// | `put_u8(value)`, `put_u16(value)`, `put_u32(value)` | writes one, two or four bytes, the highest first |
/// | `put_zeros(count)` | writes so many zeros |
/// | `put_front(bytes)` | writes the first of the bytes, as many as are free |
/// | `part(count)` | lends the next bytes: what they hold at the end is written |
///
/// ```
/// use control_wire::ByteWriter;
///
/// let mut octets = [0xff; 8];
/// let mut w = ByteWriter::new(&mut octets);
/// w.put_u8(1);
/// w.put_u16(0x0203);
/// w.part(2).copy_from_slice(&[4, 5]);
/// assert_eq!(w.free(), 3);
/// w.put_front(b"more than fits");
/// assert_eq!(octets, [1, 2, 3, 4, 5, b'm', b'o', b'r']);
/// ```
///
/// # Panics
///
/// Each call but `free` and `put_front` may panic where it takes more bytes than are free.
pub type ByteWriter<'a> = Cursor<&'a mut [u8]>;

impl<'a> Cursor<&'a mut [u8]> {
    /// A writer over this slice, all of whose bytes are free.
    pub fn new(buffer: &'a mut [u8]) -> ByteWriter<'a> {
        Cursor {
            buffer,
            position: 0,
        }
    }
}

impl Cursor<&mut [u8]> {
    /// The number of bytes that are free.
    pub fn free(&self) -> usize {
        self.buffer.len().saturating_sub(self.position)
    }

    /// Writes the bytes. Requires that as many are free.
    ///
    /// # Panics
    ///
    /// May panic where what is asked for above does not hold.
    pub fn put_bytes(&mut self, bytes: &[u8]) {
        self.part(bytes.len()).copy_from_slice(bytes);
    }

    /// Writes a byte. Requires that one is free.
    ///
    /// # Panics
    ///
    /// May panic where what is asked for above does not hold.
    pub fn put_u8(&mut self, value: u8) {
        self.put_bytes(&[value]);
    }

    /// Writes two bytes, the higher first. Requires that two are free.
    ///
    /// # Panics
    ///
    /// May panic where what is asked for above does not hold.
    pub fn put_u16(&mut self, value: u16) {
        let mut bytes = [0; 2];
        BigEndian::write_u16(&mut bytes, value);
        self.put_bytes(&bytes);
    }

    /// Writes four bytes, the highest first. Requires that four are free.
    ///
    /// # Panics
    ///
    /// May panic where what is asked for above does not hold.
    pub fn put_u32(&mut self, value: u32) {
        let mut bytes = [0; 4];
        BigEndian::write_u32(&mut bytes, value);
        self.put_bytes(&bytes);
    }

    /// Writes `count` zeros. Requires that as many bytes are free.
    ///
    /// # Panics
    ///
    /// May panic where what is asked for above does not hold.
    pub fn put_zeros(&mut self, count: usize) {
        self.part(count).fill(0);
    }

    /// Writes the first of the bytes, as many as are free.
    pub fn put_front(&mut self, bytes: &[u8]) {
        let count = bytes.len().min(self.free());
        self.put_bytes(&bytes[..count]);
    }
}

impl<T: OctetsMut> Cursor<T> {
    /// Lends the next bytes for writing; what they hold at the end of the borrow is written. Requires that as many are
    /// free.
    ///
    /// # Panics
    ///
    /// May panic where what is asked for above does not hold.
    pub fn part(&mut self, count: usize) -> &mut [u8] {
        let len = self.buffer.octets().len();
        let start = self.position.min(len);
        self.position += count;
        self.buffer.range_mut(start, start + count)
    }
}
