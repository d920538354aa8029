// Made from crates/opt_wire/src/ipv6ext_header.rt by rust/erase.
//! The header that the extension headers of IPv6 with options have in common (RFC 8200 sections 4.3 and 4.6).
//!
//! ```
//! use control_wire::IpProtocol;
//! use control_wire::ipv6ext_header::{Header, Repr};
//!
//! // A hop-by-hop header before a message of ICMPv6.
//! let header = Header::new_checked(&[58, 0, 5, 2, 0, 0, 1, 0])?;
//! let header = Repr::parse(&header)?;
//! assert_eq!(header.next_header, IpProtocol::Icmpv6);
//! assert_eq!(header.data, [5, 2, 0, 0, 1, 0]);
//! # Ok::<(), control_wire::Error>(())
//! ```

use crate::wirebase::{ByteWriter, Error, IpProtocol, Octets, OctetsMut, Result};

mod refusal;

pub use refusal::Refusal;

// The fields of a header.
mod field {
    use crate::wirebase::Field;

    pub const NEXT_HEADER: Field = 0..1;

    pub const LENGTH: Field = 1..2;

    pub const PAYLOAD: usize = 2;

    // The bytes of the shortest header.
    pub const MIN_END: usize = 8;
}

/// A view of the octets of a header.
#[derive(Debug)]
pub struct Header<T: Octets> {
    buffer: T,
}

impl<T: Octets> Header<T> {
    /// Makes a view of `buffer`; its length is not checked.
    pub const fn new_unchecked(buffer: T) -> Header<T> {
        Header { buffer }
    }

    /// Makes a view of `buffer`. Refused where it has fewer than 8 octets, or fewer than the length field counts. On
    /// refusal the buffer is dropped: to keep a `&mut [u8]`, call `new_unchecked` and then `check_len`.
    pub fn new_checked(buffer: T) -> Result<Header<T>> {
        let header = Header::new_unchecked(buffer);
        header.check_len()?;
        Ok(header)
    }

    /// Accepts 8 octets or more that hold all the bytes that the length field counts. Then each accessor may be called.
    pub fn check_len(&self) -> Result<()> {
        let len = self.buffer.octets().len();
        if len < field::MIN_END || len < end_of(self.header_len()) {
            return Err(Error);
        }
        Ok(())
    }

    /// Returns the buffer of the view.
    pub fn into_inner(self) -> T {
        self.buffer
    }

    /// The protocol of what follows the header. Requires at least 1 byte.
    ///
    /// # Panics
    ///
    /// May panic where what is asked for above does not hold.
    pub fn next_header(&self) -> IpProtocol {
        IpProtocol::from(self.buffer.u8_at(field::NEXT_HEADER))
    }

    /// The length of the header in units of eight bytes, without the first eight bytes. Requires at least 2 bytes.
    ///
    /// # Panics
    ///
    /// May panic where what is asked for above does not hold.
    pub fn header_len(&self) -> u8 {
        self.buffer.u8_at(field::LENGTH)
    }
}

// Where the payload of a header of this length ends.
fn end_of(length: u8) -> usize {
    8 * length as usize + field::MIN_END
}

impl<'a, B: AsRef<[u8]> + ?Sized> Header<&'a B> {
    /// The payload, for as long as the octets live. Requires the bytes that the length counts.
    ///
    /// # Panics
    ///
    /// May panic where what is asked for above does not hold.
    pub fn payload(&self) -> &'a [u8] {
        let octets: &'a [u8] = self.buffer.as_ref();
        &octets[field::PAYLOAD..end_of(self.header_len())]
    }
}

impl<T: OctetsMut> Header<T> {
    /// Writes the protocol of what follows the header. Requires at least 1 byte.
    ///
    /// # Panics
    ///
    /// May panic where what is asked for above does not hold.
    pub fn set_next_header(&mut self, value: IpProtocol) {
        self.buffer.set_u8(field::NEXT_HEADER, value.into());
    }

    /// Writes the length in units of eight bytes, without the first eight bytes. Requires at least 2 bytes.
    ///
    /// # Panics
    ///
    /// May panic where what is asked for above does not hold.
    pub fn set_header_len(&mut self, value: u8) {
        self.buffer.set_u8(field::LENGTH, value);
    }

    /// Lends the payload for writing; the other octets are unchanged. Requires the bytes that the length counts.
    ///
    /// # Panics
    ///
    /// May panic where what is asked for above does not hold.
    pub fn payload_mut(&mut self) -> &mut [u8] {
        let end = end_of(self.header_len());
        self.buffer.range_mut(field::PAYLOAD, end)
    }
}

/// Views are equal where their octets are equal.
impl<T: Octets> PartialEq for Header<T> {
    fn eq(&self, other: &Header<T>) -> bool {
        self.buffer.octets() == other.buffer.octets()
    }
}

impl<T: Octets> Eq for Header<T> {}

/// The value of a header (RFC 8200 sections 4.3 and 4.6).
#[derive(Debug, PartialEq, Eq, Clone, Copy)]
pub struct Repr<'a> {
    /// The protocol of what follows the header.
    pub next_header: IpProtocol,
    /// The length of the header in units of eight bytes, without the first eight bytes.
    pub length: u8,
    /// The payload: the bytes of the header after its length field.
    pub data: &'a [u8],
}

impl<'a> Repr<'a> {
    /// The header at the front of the octets. Refused where there are fewer than 8 octets, or fewer than the length
    /// counts.
    pub fn parse<B: AsRef<[u8]> + ?Sized>(header: &Header<&'a B>) -> Result<Repr<'a>> {
        header.check_len()?;
        Ok(Repr {
            next_header: header.next_header(),
            length: header.header_len(),
            data: header.payload(),
        })
    }

    /// The bytes that are written: 2.
    pub const fn header_len(&self) -> usize {
        field::PAYLOAD
    }

    /// Writes the next header and the length over the first two octets; the others, the payload too, are unchanged.
    /// Requires at least 2 bytes.
    ///
    /// # Panics
    ///
    /// May panic where what is asked for above does not hold.
    pub fn emit<T: OctetsMut>(&self, header: &mut Header<T>) {
        self.emit_into(header.buffer.octets_mut());
    }

    /// Like `emit`, but writes into a slice.
    ///
    /// # Panics
    ///
    /// May panic where what is asked for above does not hold.
    pub fn emit_into(&self, octets: &mut [u8]) {
        self.write(octets);
    }

    // Writes the first two bytes.
    fn write(&self, octets: &mut [u8]) {
        let mut w = ByteWriter::new(octets);
        w.put_u8(self.next_header.into());
        w.put_u8(self.length);
    }
}
