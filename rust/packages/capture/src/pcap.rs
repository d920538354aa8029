// Made from crates/capture/src/pcap.rt by rust/erase.
//! The headers of a pcap file and of its records (draft-ietf-opsawg-pcap sections 4 and 5).

use crate::capture::MOST_OCTETS;
use crate::ending::Ending;
use crate::order::Order;
use crate::packet::Packet;
use crate::time::Time;
use crate::unit::UnitHead;

// The fields of both headers.
mod field {
    use control_wire::Field;

    pub const MAGIC: Field = 0..4;

    pub const MAJOR: Field = 4..6;

    pub const MINOR: Field = 6..8;

    pub const LINK_TYPE: Field = 20..24;

    pub const SECONDS: Field = 0..4;

    pub const FRACTION: Field = 4..8;

    pub const CAPTURED_LEN: Field = 8..12;

    pub const ORIGINAL_LEN: Field = 12..16;
}

/// The length of a file's header in bytes.
pub const FILE_HEADER_LEN: usize = field::LINK_TYPE.end;

/// The length of a record's header in bytes.
pub const RECORD_HEADER_LEN: usize = field::ORIGINAL_LEN.end;

/// The unit of the fractions of seconds.
#[derive(Debug, PartialEq, Eq, Clone, Copy)]
pub enum Precision {
    /// Microseconds.
    Micro,
    /// Nanoseconds.
    Nano,
}

/// The header of a file.
#[derive(Debug, PartialEq, Eq, Clone, Copy)]
pub struct FileHeader {
    /// The byte order of the numbers after the magic number.
    pub order: Order,
    /// The unit of the fractions of seconds.
    pub precision: Precision,
    /// The type of the link that each packet was captured on.
    pub link_type: u16,
}

impl FileHeader {
    /// Parses the header at the start of the octets, of version 2.4. Refused where they do not begin with a magic
    /// number (`NotACapture`), are fewer than 24 (`Cut`), or are of another version (`Version`).
    pub fn parse(octets: &[u8]) -> Result<FileHeader, Ending> {
        let Some((order, precision)) = magic(octets) else {
            return Err(Ending::NotACapture);
        };
        if octets.len() < FILE_HEADER_LEN {
            return Err(Ending::Cut);
        }
        if order.u16_at(octets, field::MAJOR) != 2 || order.u16_at(octets, field::MINOR) != 4 {
            return Err(Ending::Version);
        }
        Ok(FileHeader {
            order,
            precision,
            link_type: (order.u32_at(octets, field::LINK_TYPE) % 65536) as u16,
        })
    }
}

// The byte order and the precision of a magic number.
fn magic(octets: &[u8]) -> Option<(Order, Precision)> {
    if octets.len() < field::MAGIC.end {
        return None;
    }
    match Order::Big.u32_at(octets, field::MAGIC) {
        0xa1b2c3d4 => Some((Order::Big, Precision::Micro)),
        0xa1b23c4d => Some((Order::Big, Precision::Nano)),
        0xd4c3b2a1 => Some((Order::Little, Precision::Micro)),
        0x4d3cb2a1 => Some((Order::Little, Precision::Nano)),
        _ => None,
    }
}

/// The header of a record.
#[derive(Debug, PartialEq, Eq, Clone, Copy)]
pub struct RecordHeader {
    /// The whole seconds since 1970-01-01 00:00:00 UTC.
    pub seconds: u32,
    /// The microseconds or nanoseconds after them.
    pub fraction: u32,
    /// The number of bytes of the packet in the file.
    pub captured_len: u32,
    /// The packet's original length in bytes.
    pub original_len: u32,
}

impl RecordHeader {
    /// Parses the header at the start of the octets. Requires at least 16 bytes.
    ///
    /// # Panics
    ///
    /// May panic where what is asked for above does not hold.
    pub fn parse(order: Order, octets: &[u8]) -> RecordHeader {
        RecordHeader {
            seconds: order.u32_at(octets, field::SECONDS),
            fraction: order.u32_at(octets, field::FRACTION),
            captured_len: order.u32_at(octets, field::CAPTURED_LEN),
            original_len: order.u32_at(octets, field::ORIGINAL_LEN),
        }
    }
}

/// Whether the octets begin with a whole record, of at most `MOST_OCTETS` bytes.
#[inline]
pub fn shows_record(order: Order, octets: &[u8]) -> bool {
    if octets.len() < RECORD_HEADER_LEN {
        return false;
    }
    let captured_len = order.u32_at(octets, field::CAPTURED_LEN);
    captured_len <= MOST_OCTETS && captured_len as usize <= octets.len() - RECORD_HEADER_LEN
}

impl UnitHead for RecordHeader {
    const LEN: usize = RECORD_HEADER_LEN;

    #[inline]
    fn of(order: Order, octets: &[u8]) -> Result<RecordHeader, Ending> {
        if octets.is_empty() {
            return Err(Ending::Whole);
        }
        if octets.len() < RECORD_HEADER_LEN {
            return Err(Ending::Cut);
        }
        let head = RecordHeader::parse(order, octets);
        if head.captured_len > MOST_OCTETS {
            return Err(Ending::TooLarge);
        }
        Ok(head)
    }

    fn unit_len(&self) -> usize {
        RECORD_HEADER_LEN + self.captured_len as usize
    }

    fn is_read(&self) -> bool {
        true
    }
}

/// The packet of a record with this header, whose bytes follow it.
pub fn packet(file: &FileHeader, head: &RecordHeader) -> Packet {
    Packet {
        time: Some(Time::of_fraction(
            head.seconds,
            head.fraction,
            file.precision,
        )),
        link_type: file.link_type,
        original_len: head.original_len,
        start: RECORD_HEADER_LEN,
        captured_len: head.captured_len,
    }
}
