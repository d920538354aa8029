// Made from crates/workloads/src/digest.rt by rust/erase.
//! A digest of results: a different result almost surely gives a different digest. The modules below add the values
//! that jobs read, each with all its fields: their patterns name every field, so that a new one cannot be left out.

pub mod frames;
pub mod groups;
pub mod icmp;
pub mod ip;
pub mod lease;
pub mod neighbors;
pub mod options;
pub mod since_start;

use byteorder::{ByteOrder, LittleEndian};

// The rotation of the digest before a word is added to it.
const TURN: u32 = 5;

// The digest of a missing value: no number of 32 bits.
const MISSING: u64 = 0x1_0000_0000;

// The number of leading bytes that are added of data.
const FRONT_LEN: usize = 64;

/// What was digested so far.
pub struct Digest {
    value: u64,
}

impl Digest {
    /// The digest of nothing.
    pub fn new() -> Digest {
        Digest { value: 0 }
    }

    /// The digest as a number.
    pub fn value(&self) -> u64 {
        self.value
    }

    /// Adds a number.
    #[inline(always)]
    pub fn add(&mut self, number: u64) {
        self.value = self.value.rotate_left(TURN).wrapping_add(number);
    }

    /// Adds that something is missing.
    #[inline(always)]
    pub fn add_missing(&mut self) {
        self.add(MISSING);
    }

    /// Adds a number that may be missing.
    #[inline(always)]
    pub fn add_option(&mut self, number: Option<u32>) {
        match number {
            Some(number) => self.add(number as u64),
            None => self.add_missing(),
        }
    }

    /// Adds the number of a value that has a name, or of one that has none.
    #[inline(always)]
    pub fn add_numbered(&mut self, number: u16, is_named: bool) {
        self.add(2 * number as u64 + is_named as u64);
    }

    /// Adds some bytes and how many they are.
    pub fn add_octets(&mut self, octets: &[u8]) {
        let mut rest = octets;
        while rest.len() >= 8 {
            self.add(LittleEndian::read_u64(rest));
            rest = &rest[8..];
        }
        if rest.len() >= 4 {
            self.add(LittleEndian::read_u32(rest) as u64);
            rest = &rest[4..];
        }
        for byte in rest {
            self.add(*byte as u64);
        }
        self.add(octets.len() as u64);
    }

    /// Adds the number of bytes and the first 64 of them: for data whose checksum is among these, or is added too.
    pub fn add_front(&mut self, octets: &[u8]) {
        self.add_octets(&octets[..octets.len().min(FRONT_LEN)]);
        self.add(octets.len() as u64);
    }

    /// Adds the number of bytes and the first and the last 8 of them: for the part of a packet that is read further.
    pub fn add_ends(&mut self, octets: &[u8]) {
        let len = octets.len();
        if len < 8 {
            self.add_octets(octets);
            return;
        }
        self.add(LittleEndian::read_u64(octets));
        self.add(LittleEndian::read_u64(&octets[len - 8..]));
        self.add(len as u64);
    }
}
