// Made from crates/dhcp_options/src/joined.rt by rust/erase.
//! The options that stand in several parts, joined.

use crate::dhcp_options::areas::Areas;
use crate::dhcp_options::parts::Parts;
use crate::dhcp_wire::dhcpv4::DhcpOption;
use crate::wirebase::{ByteWriter, Error, Result};

/// The octets of the parts of one kind in turn.
#[derive(Debug, Clone)]
pub struct KindParts<'a> {
    areas: Areas<'a>,
    kind: u8,
}

impl<'a> Iterator for KindParts<'a> {
    type Item = &'a [u8];

    fn next(&mut self) -> Option<&'a [u8]> {
        while let Some(answer) = self.areas.next_answer() {
            match answer {
                Ok(placed) if placed.option.kind == self.kind => return Some(placed.option.data),
                _ => {}
            }
        }
        None
    }
}

impl<'a> Parts<'a> {
    /// The octets of the parts of this kind that are still to come, in turn.
    pub fn of_kind(&self, kind: u8) -> KindParts<'a> {
        parts_in(self.areas, kind)
    }

    /// The bytes of the parts of this kind that are still to come, joined; 0 where there is none.
    pub fn joined_len(&self, kind: u8) -> usize {
        let mut len = 0;
        for octets in parts_in(self.areas, kind) {
            len += octets.len();
        }
        len
    }

    /// Writes the octets of the parts of this kind that are still to come, one after another, over the front of the
    /// buffer, and returns how many they are (RFC 3396). Refused where the buffer has fewer bytes than
    /// `joined_len`; then nothing changes.
    pub fn join(&self, kind: u8, buffer: &mut [u8]) -> Result<usize> {
        let len = self.joined_len(kind);
        if buffer.len() < len {
            return Err(Error);
        }
        self.write_joined(kind, buffer);
        Ok(len)
    }

    // Writes the octets of the parts of a kind over the front of a buffer that has room for them.
    fn write_joined(&self, kind: u8, buffer: &mut [u8]) {
        let mut w = ByteWriter::new(buffer);
        for octets in self.of_kind(kind) {
            w.put_bytes(octets);
        }
    }

    /// The option of this kind, joined from its parts that are still to come. Where it has one part, the data is lent
    /// from the packet; else it is joined in the buffer. Refused where several parts have more bytes, joined, than the
    /// buffer; one with as many bytes as the packet is always enough. Where there is no part, the data is empty.
    pub fn option(&self, kind: u8, buffer: &'a mut [u8]) -> Result<DhcpOption<'a>> {
        if let Some(data) = self.only_part(kind) {
            return Ok(DhcpOption { kind, data });
        }
        let len = self.join(kind, buffer)?;
        Ok(DhcpOption {
            kind,
            data: &buffer[..len],
        })
    }

    // The octets of the one part of a kind. None where there is no part, or more than one.
    fn only_part(&self, kind: u8) -> Option<&'a [u8]> {
        let mut parts = self.of_kind(kind);
        let first = parts.next()?;
        match parts.next() {
            Some(_) => None,
            None => Some(first),
        }
    }
}

// The parts of a kind in areas.
fn parts_in<'a>(areas: Areas<'a>, kind: u8) -> KindParts<'a> {
    KindParts { areas, kind }
}
