// Made from crates/group_wire/src/records.rt by rust/erase.
//! The records of a report in turn (RFC 3376 section 4.2.4, RFC 3810 section 5.2.4).

use crate::groups::address::Address;
use crate::groups::record::{Record, read_record, record_len};
use core::marker::PhantomData;

/// The records of a report.
#[derive(Debug, PartialEq, Eq, Clone, Copy)]
pub struct Records<'a, A: Address> {
    pub(crate) count: u16,
    pub(crate) octets: &'a [u8],
    address: PhantomData<A>,
}

impl<'a, A: Address> Records<'a, A> {
    // So many records in these octets.
    pub(crate) fn new(count: u16, octets: &'a [u8]) -> Records<'a, A> {
        Records {
            count,
            octets,
            address: PhantomData,
        }
    }

    /// How many they are.
    pub fn len(&self) -> usize {
        self.count as usize
    }

    /// Whether there are none.
    pub fn is_empty(&self) -> bool {
        self.count == 0
    }

    /// The records in turn.
    pub fn iter(&self) -> RecordsIterator<'a, A> {
        RecordsIterator {
            left: self.count,
            rest: self.octets,
            address: PhantomData,
        }
    }
}

/// The records of a report in turn.
#[derive(Debug, Clone)]
pub struct RecordsIterator<'a, A: Address> {
    // How many records are left, and the octets after those that were given already.
    left: u16,
    rest: &'a [u8],
    address: PhantomData<A>,
}

impl<'a, A: Address> Iterator for RecordsIterator<'a, A> {
    type Item = Record<'a, A>;

    fn next(&mut self) -> Option<Record<'a, A>> {
        if self.left == 0 {
            return None;
        }
        match record_len::<A>(self.rest) {
            Some(len) => {
                let (front, behind) = self.rest.split_at(len);
                self.left -= 1;
                self.rest = behind;
                Some(read_record(front))
            }
            None => {
                self.left = 0;
                None
            }
        }
    }
}

// The bytes of so many records at the front of the octets; None where the octets end before one of them does.
pub(crate) fn records_len<A: Address>(count: u16, octets: &[u8]) -> Option<usize> {
    let mut left = count;
    let mut rest = octets;
    while left > 0 {
        let len = record_len::<A>(rest)?;
        left -= 1;
        rest = &rest[len..];
    }
    Some(octets.len() - rest.len())
}
