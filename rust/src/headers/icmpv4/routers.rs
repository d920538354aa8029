// Made from crates/header_wire/src/icmpv4/routers.rt by rust/erase.
//! The routers of an advertisement in turn (RFC 1256 section 3).

use crate::wirebase::{Ipv4Address, Octets};
use byteorder::{BigEndian, ByteOrder};

mod field {
    use crate::wirebase::Field;

    pub const ADDR: Field = 0..4;

    pub const PREFERENCE: Field = 4..8;
}

// The bytes and the words of an address and its preference; an entry may have more words, which are not looked at.
const ENTRY_LEN: usize = field::PREFERENCE.end;

pub(super) const ENTRY_WORDS: u8 = 2;

/// A router of an advertisement.
#[derive(Debug, PartialEq, Eq, Clone, Copy)]
pub struct Router {
    /// Its address.
    pub addr: Ipv4Address,
    /// How much it is preferred as a default router, higher values more: the lowest one, -2147483648, says that it is
    /// none.
    pub preference: i32,
}

/// The routers of an advertisement: entries, one after another.
#[derive(Debug, PartialEq, Eq, Clone, Copy)]
pub struct Routers<'a> {
    pub(super) count: u8,
    // the words of an entry beyond its first two
    pub(super) spare_words: u8,
    pub(super) octets: &'a [u8],
}

impl<'a> Routers<'a> {
    /// The routers in these octets, 8 for each: its address, and its preference as a two's complement number. Fewer
    /// octets than that at the end are ignored. Requires at most 255 routers.
    ///
    /// # Panics
    ///
    /// May panic where what is asked for above does not hold.
    pub fn new(octets: &'a [u8]) -> Routers<'a> {
        let count = octets.len() / ENTRY_LEN;
        Routers {
            count: count as u8,
            spare_words: 0,
            octets: &octets[..ENTRY_LEN * count],
        }
    }

    /// How many they are.
    pub fn len(&self) -> usize {
        self.count as usize
    }

    /// The routers in turn.
    pub fn iter(&self) -> RoutersIterator<'a> {
        RoutersIterator {
            left: self.count,
            spare_words: self.spare_words,
            rest: self.octets,
        }
    }
}

/// The routers of an advertisement in turn.
#[derive(Debug, Clone)]
pub struct RoutersIterator<'a> {
    // How many are left, the words of an entry beyond its first two, and the octets after those that were given
    // already.
    left: u8,
    spare_words: u8,
    rest: &'a [u8],
}

impl<'a> Iterator for RoutersIterator<'a> {
    type Item = Router;

    fn next(&mut self) -> Option<Router> {
        let width = ENTRY_LEN + 4 * self.spare_words as usize;
        if self.left == 0 || self.rest.len() < width {
            return None;
        }
        let (entry, behind) = self.rest.split_at(width);
        self.left -= 1;
        self.rest = behind;
        Some(read_router(entry))
    }
}

// The router of an entry.
fn read_router(entry: &[u8]) -> Router {
    Router {
        addr: Ipv4Address::from_octets(entry.field(field::ADDR).try_into().unwrap()),
        preference: BigEndian::read_i32(entry.field(field::PREFERENCE)),
    }
}
