// Made from crates/opt_wire/src/ipv6hbh.rt by rust/erase.
//! Hop-by-hop options headers (RFC 8200 section 4.3), without their first two bytes.
//!
//! ```
//! use control_wire::ipv6hbh::{Header, Repr};
//! use control_wire::ipv6option;
//!
//! // The options of the header before a report of multicast listener discovery: a router alert, and padding.
//! let header = Header::new_checked(&[5, 2, 0, 0, 1, 0])?;
//! let options = Repr::parse(&header)?.options;
//! assert!(matches!(options[0], ipv6option::Repr::RouterAlert(_)));
//! # Ok::<(), control_wire::Error>(())
//! ```

use crate::opt_wire::ipv6option;
use crate::opt_wire::ipv6option::{Ipv6OptionsIterator, RouterAlert};
use crate::wirebase::{ByteWriter, Error, IPV6_HBH_MAX_OPTIONS, Octets, OctetsMut, Result};
use arrayvec::ArrayVec;

mod refusal;

pub use refusal::Refusal;

/// A view of the options of a hop-by-hop header: all its bytes after the first two.
#[derive(Debug)]
pub struct Header<T: Octets> {
    buffer: T,
}

impl<T: Octets> Header<T> {
    /// Makes a view of `buffer`; its length is not checked.
    pub const fn new_unchecked(buffer: T) -> Header<T> {
        Header { buffer }
    }

    /// Makes a view of `buffer`. Refused where it is empty. On refusal the buffer is dropped: to keep a `&mut [u8]`,
    /// call `new_unchecked` and then `check_len`.
    pub fn new_checked(buffer: T) -> Result<Header<T>> {
        let header = Header::new_unchecked(buffer);
        header.check_len()?;
        Ok(header)
    }

    /// Accepts one octet or more.
    pub fn check_len(&self) -> Result<()> {
        if self.buffer.octets().is_empty() {
            return Err(Error);
        }
        Ok(())
    }

    /// Returns the buffer of the view.
    pub fn into_inner(self) -> T {
        self.buffer
    }
}

impl<'a, B: AsRef<[u8]> + ?Sized> Header<&'a B> {
    /// The octets of all options, for as long as the octets live.
    pub fn options(&self) -> &'a [u8] {
        let octets: &'a [u8] = self.buffer.as_ref();
        octets
    }
}

impl<T: OctetsMut> Header<T> {
    /// Lends all octets for writing.
    pub fn options_mut(&mut self) -> &mut [u8] {
        self.buffer.octets_mut()
    }
}

/// The options of a hop-by-hop header, at most `IPV6_HBH_MAX_OPTIONS`.
#[derive(Debug, PartialEq, Eq, Clone)]
pub struct Repr<'a> {
    /// The options, in the order of the header.
    pub options: ArrayVec<ipv6option::Repr<'a>, IPV6_HBH_MAX_OPTIONS>,
}

impl<'a> Repr<'a> {
    /// The first `IPV6_HBH_MAX_OPTIONS` options of a header. Refused where there are no octets, and where one of these
    /// options, or the one after them, can't be read; what follows is not checked.
    pub fn parse<B: AsRef<[u8]> + ?Sized>(header: &Header<&'a B>) -> Result<Repr<'a>> {
        Repr::read(header)
    }

    // The options of a header.
    fn read<B: AsRef<[u8]> + ?Sized>(header: &Header<&'a B>) -> Result<Repr<'a>> {
        header.check_len()?;
        let mut options = ArrayVec::new();
        read_options(header.options(), &mut options)?;
        Ok(Repr { options })
    }

    /// The bytes that the options take, by their length fields.
    pub fn buffer_len(&self) -> usize {
        let options = self.options.as_slice();
        let mut len = 0;
        for option in options {
            len += option.buffer_len();
        }
        len
    }

    /// The header of the multicast listener reports of version 2: one router alert (RFC 3810 section 5).
    #[inline]
    pub fn mldv2_router_alert() -> Repr<'a> {
        let mut options = ArrayVec::new();
        options.push(ipv6option::Repr::RouterAlert(
            RouterAlert::MulticastListenerDiscovery,
        ));
        Repr { options }
    }

    /// Adds padding, a PadN of `n` bytes of data, last. Requires that the list has room.
    ///
    /// # Panics
    ///
    /// May panic where what is asked for above does not hold.
    #[inline]
    pub fn push_padn_option(&mut self, n: u8) {
        self.options.push(ipv6option::Repr::PadN(n));
    }

    /// Writes the options over the front of the octets; the other octets are unchanged. Requires the bytes that the
    /// options take, and that each option holds as much data as its length counts.
    ///
    /// # Panics
    ///
    /// May panic where what is asked for above does not hold.
    pub fn emit<T: OctetsMut>(&self, header: &mut Header<T>) {
        self.emit_into(header.options_mut());
    }

    /// Like `emit`, but writes into a slice.
    ///
    /// # Panics
    ///
    /// May panic where what is asked for above does not hold.
    pub fn emit_into(&self, octets: &mut [u8]) {
        let mut w = ByteWriter::new(octets);
        put_options(&mut w, self.options.as_slice());
    }
}

// Reads the options of a header into an empty list, up to one more than it has room for. The list is the caller's, so
// that it is not copied at each turn.
#[inline(never)]
fn read_options<'a>(
    octets: &'a [u8],
    options: &mut ArrayVec<ipv6option::Repr<'a>, IPV6_HBH_MAX_OPTIONS>,
) -> Result<()> {
    for option in Ipv6OptionsIterator::new(octets) {
        let option = option?;
        if options.is_full() {
            break;
        }
        options.push(option);
    }
    Ok(())
}

// Writes options one after another.
fn put_options(w: &mut ByteWriter<'_>, options: &[ipv6option::Repr<'_>]) {
    for option in options {
        option.put(w);
    }
}
