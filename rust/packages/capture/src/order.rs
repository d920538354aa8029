// Made from crates/capture/src/order.rt by rust/erase.
//! The byte order of numbers.

use byteorder::{BigEndian, ByteOrder, LittleEndian};
use control_wire::{Field, Octets};

/// The byte order of the machine that wrote a file.
#[derive(Debug, PartialEq, Eq, Clone, Copy)]
pub enum Order {
    /// Big-endian: the highest byte first.
    Big,
    /// Little-endian: the lowest byte first.
    Little,
}

impl Order {
    /// The number in a field of two bytes. Requires at least two bytes.
    ///
    /// # Panics
    ///
    /// May panic where what is asked for above does not hold.
    pub fn u16_at(self, octets: &[u8], field: Field) -> u16 {
        let bytes = octets.range(field.start, field.end);
        match self {
            Order::Big => BigEndian::read_u16(bytes),
            Order::Little => LittleEndian::read_u16(bytes),
        }
    }

    /// The number in a field of four bytes. Requires at least four bytes.
    ///
    /// # Panics
    ///
    /// May panic where what is asked for above does not hold.
    #[inline]
    pub fn u32_at(self, octets: &[u8], field: Field) -> u32 {
        let bytes = octets.range(field.start, field.end);
        match self {
            Order::Big => BigEndian::read_u32(bytes),
            Order::Little => LittleEndian::read_u32(bytes),
        }
    }

    /// The signed number in the first eight bytes. Requires at least eight bytes.
    ///
    /// # Panics
    ///
    /// May panic where what is asked for above does not hold.
    pub fn i64_of(self, octets: &[u8]) -> i64 {
        match self {
            Order::Big => BigEndian::read_i64(octets),
            Order::Little => LittleEndian::read_i64(octets),
        }
    }
}
