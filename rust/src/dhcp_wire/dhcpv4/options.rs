// Made from crates/dhcp_wire/src/dhcpv4/options.rt by rust/erase.
//! Options, read in turn and written in turn (RFC 2132 section 2).

use super::option_data::Data;
use super::option_kinds::{OPT_END, OPT_PAD};
use crate::wirebase::{ByteWriter, Error, Result};
use byteorder::{ByteOrder, LittleEndian};

// The greatest number of bytes of data: an option counts them in one byte.
const MAX_DATA_LEN: usize = 255;

/// An option: a kind, and at most 255 bytes of data where it is to be written.
///
/// ```
/// use control_wire::dhcpv4::{DhcpOption, OPT_IP_LEASE_TIME, OptionValue};
///
/// let lease = DhcpOption { kind: OPT_IP_LEASE_TIME, data: &[0, 0, 0x0e, 0x10] };
/// assert_eq!(lease.name(), Some("lease-time"));
/// assert_eq!(lease.value(), OptionValue::Seconds(3_600));
/// assert_eq!(lease.to_string(), "lease-time=3600");
/// ```
#[derive(Debug, PartialEq, Eq, Clone, Copy)]
pub struct DhcpOption<'a> {
    /// The kind: one of the `OPT_` constants, or any other number.
    pub kind: u8,
    /// The data, without the kind and the length before them.
    pub data: &'a [u8],
}

/// The options of a packet in turn. Padding is skipped; the end mark, and an option that is cut off, are the end.
#[derive(Debug, Clone)]
pub struct OptionsIter<'a> {
    // The octets after the options that were given already.
    rest: &'a [u8],
}

impl<'a> OptionsIter<'a> {
    // The options in these octets.
    pub(super) fn new(octets: &'a [u8]) -> OptionsIter<'a> {
        OptionsIter { rest: octets }
    }
}

impl<'a> Iterator for OptionsIter<'a> {
    type Item = DhcpOption<'a>;

    #[inline]
    fn next(&mut self) -> Option<DhcpOption<'a>> {
        let [kind, count, rest @ ..] = after_padding(self.rest) else {
            return None;
        };
        if *kind == OPT_END || rest.len() < *count as usize {
            return None;
        }
        let (data, rest) = rest.split_at(*count as usize);
        self.rest = rest;
        Some(DhcpOption { kind: *kind, data })
    }
}

// The octets from the first one on that isn't padding. Most options have no padding before them.
#[inline]
fn after_padding(octets: &[u8]) -> &[u8] {
    if octets.is_empty() || octets[0] != OPT_PAD {
        return octets;
    }
    past_words(octets)
}

// `after_padding`, eight octets at a time: the lowest set bit of the little-endian word is in the first octet that
// isn't padding. Never inlined, to keep the option loop small.
#[inline(never)]
fn past_words(octets: &[u8]) -> &[u8] {
    let mut rest = octets;
    while rest.len() >= 8 {
        let word = LittleEndian::read_u64(rest);
        if word != 0 {
            return &rest[(word.trailing_zeros() / 8) as usize..];
        }
        rest = &rest[8..];
    }
    past_octets(rest)
}

// `after_padding`, octet by octet.
fn past_octets(octets: &[u8]) -> &[u8] {
    for (i, kind) in octets.iter().enumerate() {
        if *kind != OPT_PAD {
            return &octets[i..];
        }
    }
    &[]
}

/// Writes options over a slice, one after another from its front on, and then the end mark.
#[derive(Debug)]
pub struct DhcpOptionWriter<'a> {
    buffer: &'a mut [u8],
    position: usize,
}

impl<'a> DhcpOptionWriter<'a> {
    /// A writer over this slice, all of whose bytes are free.
    pub fn new(buffer: &'a mut [u8]) -> DhcpOptionWriter<'a> {
        DhcpOptionWriter {
            buffer,
            position: 0,
        }
    }

    /// The bytes that are written so far: those of the options, and after the end mark those of the whole slice.
    pub fn len(&self) -> usize {
        self.position
    }

    /// Whether nothing is written so far.
    pub fn is_empty(&self) -> bool {
        self.position == 0
    }

    /// Writes an option: its kind, the number of bytes of its data, and the data. Refused where the data has more than
    /// 255 bytes, and where fewer bytes are free than the option takes; then nothing changes.
    pub fn emit(&mut self, option: DhcpOption<'_>) -> Result<()> {
        self.emit_data(option.kind, option.data)
    }

    /// Writes the end mark. After that no byte is free. Refused where none is; then nothing changes.
    pub fn end(&mut self) -> Result<()> {
        let start = self.position;
        if start == self.buffer.len() {
            return Err(Error);
        }
        write_end(&mut self.buffer[start..]);
        self.position = self.buffer.len();
        Ok(())
    }

    // Writes an option of this kind whose data is a field of a value, where the field is there.
    pub(super) fn put<D: Data>(&mut self, kind: u8, field: Option<D>) -> Result<()> {
        match field {
            Some(data) => self.emit_data(kind, data),
            None => Ok(()),
        }
    }

    // Writes an option of this kind with this data; refused as by `emit`.
    fn emit_data<D: Data>(&mut self, kind: u8, body: D) -> Result<()> {
        let start = self.position;
        let len = body.len();
        if len > MAX_DATA_LEN || self.buffer.len() - start < 2 + len {
            return Err(Error);
        }
        let end = start + 2 + len;
        write_option(&mut self.buffer[start..end], kind, len as u8, body);
        self.position = end;
        Ok(())
    }
}

// Writes an option over octets of its length.
fn write_option<D: Data>(octets: &mut [u8], kind: u8, len: u8, body: D) {
    let mut w = ByteWriter::new(octets);
    w.put_u8(kind);
    w.put_u8(len);
    body.put(&mut w);
}

// Writes the end mark over the first octet.
fn write_end(octets: &mut [u8]) {
    ByteWriter::new(octets).put_u8(OPT_END);
}
