// Made from crates/extension_wire/src/mpls.rt by rust/erase.
//! The stack of MPLS labels that a datagram had (RFC 4950).

use crate::extensions::refusal::LabelRefusal;
use crate::wirebase::{ByteWriter, Octets};
use core::fmt;

/// The class of an object with a stack of labels (RFC 4950 section 3).
pub const CLASS: u8 = 1;

/// Its C-Type: the stack that came in.
pub const C_TYPE: u8 = 1;

/// The bytes of an entry.
pub const ENTRY_LEN: usize = 4;

/// An entry of a stack of labels (RFC 3032 section 2.1, RFC 5462).
#[derive(Debug, PartialEq, Eq, Clone, Copy)]
pub struct LabelEntry {
    /// The label, of 20 bits.
    pub label: u32,
    /// The traffic class, of 3 bits, which older documents call EXP.
    pub traffic_class: u8,
    /// Whether it is the last entry of the stack.
    pub bottom: bool,
    /// The time to live.
    pub ttl: u8,
}

impl LabelEntry {
    // The entry that is these four octets.
    fn read(octets: &[u8]) -> LabelEntry {
        let number = octets.u32_at(0..4);
        LabelEntry {
            label: number / 0x1000,
            traffic_class: (number / 0x200 % 8) as u8,
            bottom: number / 0x100 % 2 == 1,
            ttl: (number % 0x100) as u8,
        }
    }

    /// Writes the entry over the first 4 octets; the others are unchanged. Requires as many, a label below 2 ^ 20 and a
    /// traffic class below 8.
    ///
    /// # Panics
    ///
    /// May panic where what is asked for above does not hold.
    pub fn emit_into(&self, octets: &mut [u8]) {
        let mut w = ByteWriter::new(octets);
        self.put(&mut w);
    }

    // Writes the four octets.
    fn put(&self, w: &mut ByteWriter<'_>) {
        let bottom = if self.bottom { 0x100 } else { 0 };
        w.put_u32(
            self.label * 0x1000 + self.traffic_class as u32 * 0x200 + bottom + self.ttl as u32,
        );
    }
}

/// The fields of the entry.
impl fmt::Display for LabelEntry {
    fn fmt(&self, f: &mut fmt::Formatter<'_>) -> fmt::Result {
        let LabelEntry {
            label,
            traffic_class,
            bottom,
            ttl,
        } = self;
        write!(
            f,
            "label={label} traffic_class={traffic_class} bottom={bottom} ttl={ttl}"
        )
    }
}

/// A stack of labels: entries, one after another.
#[derive(Debug, PartialEq, Eq, Clone, Copy)]
pub struct LabelStack<'a> {
    octets: &'a [u8],
}

impl<'a> LabelStack<'a> {
    /// The stack in the payload of an object of class [`CLASS`] and C-Type [`C_TYPE`]. Refused where its bytes are no
    /// whole number of entries.
    pub fn parse(payload: &'a [u8]) -> Result<LabelStack<'a>, LabelRefusal> {
        if payload.len() % ENTRY_LEN != 0 {
            return Err(LabelRefusal);
        }
        Ok(LabelStack { octets: payload })
    }

    /// How many entries it has.
    pub fn len(&self) -> usize {
        self.octets.len() / ENTRY_LEN
    }

    /// The entries in turn, the outermost label first. Each can be written.
    pub fn iter(&self) -> LabelStackIterator<'a> {
        LabelStackIterator { rest: self.octets }
    }
}

/// Writes a stack of these entries over the front of the octets; the others are unchanged. Requires 4 bytes for each,
/// labels below 2 ^ 20 and traffic classes below 8.
///
/// # Panics
///
/// May panic where what is asked for above does not hold.
pub fn emit(entries: &[LabelEntry], octets: &mut [u8]) {
    let mut w = ByteWriter::new(octets);
    put_entries(&mut w, entries);
}

// Writes entries one after another.
fn put_entries(w: &mut ByteWriter<'_>, entries: &[LabelEntry]) {
    for entry in entries {
        put_entry(w, entry);
    }
}

// Writes an entry.
fn put_entry(w: &mut ByteWriter<'_>, entry: &LabelEntry) {
    entry.put(w);
}

/// The entries of a stack of labels in turn, the outermost label first.
#[derive(Debug, Clone)]
pub struct LabelStackIterator<'a> {
    // The octets after the entries that were given already.
    rest: &'a [u8],
}

impl<'a> Iterator for LabelStackIterator<'a> {
    type Item = LabelEntry;

    fn next(&mut self) -> Option<LabelEntry> {
        if self.rest.len() < ENTRY_LEN {
            return None;
        }
        let (entry, behind) = self.rest.split_at(ENTRY_LEN);
        self.rest = behind;
        Some(LabelEntry::read(entry))
    }
}
