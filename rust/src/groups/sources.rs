// Made from crates/group_wire/src/sources.rt by rust/erase.
//! The sources of a record or of a query, in turn (RFC 3376 sections 4.1.9 and 4.2.9, RFC 3810 sections 5.1.11 and
//! 5.2.9).

use crate::groups::address::Address;
use crate::wirebase::ByteWriter;
use core::marker::PhantomData;

/// The sources of a record or of a query: addresses, one after another, at most 65,535 of them.
#[derive(Debug, PartialEq, Eq, Clone, Copy)]
pub struct Sources<'a, A: Address> {
    pub(crate) octets: &'a [u8],
    address: PhantomData<A>,
}

impl<'a, A: Address> Sources<'a, A> {
    /// No sources.
    pub const fn none() -> Sources<'a, A> {
        Sources::of_octets(&[])
    }

    // The sources that these octets are, whole addresses, at most 65,535 of them.
    pub(crate) const fn of_octets(octets: &'a [u8]) -> Sources<'a, A> {
        Sources {
            octets,
            address: PhantomData,
        }
    }

    /// The sources in these octets: as many addresses as are whole, and the first 65,535 of more, since a query or a
    /// record counts them in two bytes. The octets behind them are ignored.
    pub fn new(octets: &'a [u8]) -> Sources<'a, A> {
        let count = (octets.len() / A::width()).min(u16::MAX as usize);
        let len = A::width() * count;
        Sources::of_octets(&octets[..len])
    }

    /// Writes these addresses over the front of the octets, and gives them as sources. None where they are more than
    /// 65,535, or where the octets are fewer than they take; then nothing changes.
    pub fn write(addresses: &[A], octets: &'a mut [u8]) -> Option<Sources<'a, A>> {
        if addresses.len() > u16::MAX as usize {
            return None;
        }
        if addresses.len() > octets.len() / A::width() {
            return None;
        }
        let len = A::width() * addresses.len();
        let front = &mut octets[..len];
        write_addresses(front, addresses);
        Some(Sources::of_octets(front))
    }

    /// How many they are.
    pub fn len(&self) -> usize {
        self.octets.len() / A::width()
    }

    /// Whether there are none.
    pub fn is_empty(&self) -> bool {
        self.len() == 0
    }

    /// The sources in turn.
    pub fn iter(&self) -> SourcesIterator<'a, A> {
        SourcesIterator {
            rest: self.octets,
            address: PhantomData,
        }
    }
}

/// The sources of a record or of a query in turn.
#[derive(Debug, Clone)]
pub struct SourcesIterator<'a, A: Address> {
    // The octets after the sources that were given already.
    rest: &'a [u8],
    address: PhantomData<A>,
}

impl<'a, A: Address> Iterator for SourcesIterator<'a, A> {
    type Item = A;

    fn next(&mut self) -> Option<A> {
        let width = A::width();
        if self.rest.len() < width {
            return None;
        }
        let (source, behind) = self.rest.split_at(width);
        self.rest = behind;
        Some(A::read(source))
    }
}

// Writes addresses into octets of their length.
fn write_addresses<A: Address>(octets: &mut [u8], addresses: &[A]) {
    let mut w = ByteWriter::new(octets);
    put_addresses(&mut w, addresses);
}

// Writes addresses one after another.
pub(crate) fn put_addresses<A: Address>(w: &mut ByteWriter<'_>, addresses: &[A]) {
    for address in addresses {
        address.put(w);
    }
}
