// Made from crates/capture/src/pcapng.rt by rust/erase.
//! The blocks of a pcapng file (draft-ietf-opsawg-pcapng sections 3 and 4).

use crate::ending::{Ending, Refusal};
use crate::order::Order;
use crate::unit::UnitHead;
use control_wire::Octets;

mod packets;

pub use packets::parse_packet;

// The fields of the blocks.
mod field {
    use control_wire::Field;

    pub const KIND: Field = 0..4;

    pub const TOTAL_LEN: Field = 4..8;

    // The head of every block.
    pub const HEAD_END: usize = 12;

    // A section header.
    pub const BYTE_ORDER: Field = 8..12;

    pub const MAJOR: Field = 12..14;

    pub const MINOR: Field = 14..16;

    pub const SECTION_END: usize = 28;

    // An interface description.
    pub const LINK_TYPE: Field = 8..10;

    pub const SNAP_LEN: Field = 12..16;

    pub const OPTIONS: usize = 16;

    // An option.
    pub const CODE: Field = 0..2;

    pub const LENGTH: Field = 2..4;

    pub const VALUE: usize = 4;

    // An enhanced or an obsolete packet.
    pub const INTERFACE: Field = 8..12;

    pub const SHORT_INTERFACE: Field = 8..10;

    pub const TICKS_HIGH: Field = 12..16;

    pub const TICKS_LOW: Field = 16..20;

    pub const CAPTURED_LEN: Field = 20..24;

    pub const ORIGINAL_LEN: Field = 24..28;

    pub const PACKET: usize = 28;

    // A simple packet.
    pub const SIMPLE_ORIGINAL_LEN: Field = 8..12;

    pub const SIMPLE_PACKET: usize = 12;

    // The length in bytes of the field that ends a block.
    pub const TRAILER: usize = 4;
}

/// The length in bytes of a block's kind, its first field.
pub const KIND_LEN: usize = field::KIND.end;

/// The length in bytes of what each block begins with: its kind, its length, and four more.
pub const HEAD_LEN: usize = field::HEAD_END;

/// The most bytes of a block that is read.
pub const MOST_BLOCK_OCTETS: u32 = 524_288;

/// The kind of a section header, equal in both byte orders.
pub const SECTION: u32 = 0x0a0d_0d0a;

/// The kind of an interface description.
pub const INTERFACE: u32 = 1;

/// The kind of an obsolete packet.
pub const OBSOLETE_PACKET: u32 = 2;

/// The kind of a simple packet.
pub const SIMPLE_PACKET: u32 = 3;

/// The kind of an enhanced packet.
pub const ENHANCED_PACKET: u32 = 6;

// `if_tsresol`, and its default of 10^-6 s.
const IF_TSRESOL: u16 = 9;

const MICROSECONDS: u8 = 6;

// `if_tsoffset`.
const IF_TSOFFSET: u16 = 14;

/// The head of a block.
#[derive(Debug, PartialEq, Eq, Clone, Copy)]
pub struct Head {
    /// The byte order of its numbers: a section header has its own.
    pub order: Order,
    /// The kind of the block.
    pub kind: u32,
    /// The length of the block in bytes: 12 or more, and a multiple of four.
    pub total_len: u32,
}

impl Head {
    /// Parses the head at the start of the octets, in a section of this byte order. Refused where there are no octets
    /// (`Whole`), fewer than 12 (`Cut`), where a section header has no valid byte order or the length is not that of a
    /// block (`Malformed`, with `ByteOrder` or `Length`), and where a block that is read has more than
    /// `MOST_BLOCK_OCTETS` (`TooLarge`).
    pub fn parse(section: Order, octets: &[u8]) -> Result<Head, Ending> {
        if octets.is_empty() {
            return Err(Ending::Whole);
        }
        if octets.len() < HEAD_LEN {
            return Err(Ending::Cut);
        }
        let kind = section.u32_at(octets, field::KIND);
        let Some(order) = order_of(section, kind, octets) else {
            return Err(Ending::Malformed(Refusal::ByteOrder));
        };
        let total_len = order.u32_at(octets, field::TOTAL_LEN);
        if total_len < 12 || total_len % 4 != 0 {
            return Err(Ending::Malformed(Refusal::Length(total_len)));
        }
        if is_read(kind) && total_len > MOST_BLOCK_OCTETS {
            return Err(Ending::TooLarge);
        }
        Ok(Head {
            order,
            kind,
            total_len,
        })
    }
}

impl UnitHead for Head {
    const LEN: usize = HEAD_LEN;

    fn of(order: Order, octets: &[u8]) -> Result<Head, Ending> {
        Head::parse(order, octets)
    }

    fn unit_len(&self) -> usize {
        self.total_len as usize
    }

    fn is_read(&self) -> bool {
        is_read(self.kind)
    }
}

// The byte order of a block of this kind.
fn order_of(section: Order, kind: u32, octets: &[u8]) -> Option<Order> {
    if kind != SECTION {
        return Some(section);
    }
    match Order::Big.u32_at(octets, field::BYTE_ORDER) {
        0x1a2b_3c4d => Some(Order::Big),
        0x4d3c_2b1a => Some(Order::Little),
        _ => None,
    }
}

/// Whether the octets begin with the kind of a section header, as those of a pcapng file do.
pub fn begins_section(octets: &[u8]) -> bool {
    octets.len() >= KIND_LEN && Order::Big.u32_at(octets, field::KIND) == SECTION
}

/// Whether blocks of this kind are read, and not passed over.
pub fn is_read(kind: u32) -> bool {
    matches!(
        kind,
        SECTION | INTERFACE | OBSOLETE_PACKET | SIMPLE_PACKET | ENHANCED_PACKET
    )
}

/// Whether blocks of this kind hold a packet.
pub fn holds_packet(kind: u32) -> bool {
    matches!(kind, OBSOLETE_PACKET | SIMPLE_PACKET | ENHANCED_PACKET)
}

/// Whether the octets have the next packet of a section of this byte order: they begin with a whole block that holds a
/// packet, of at most `MOST_BLOCK_OCTETS` bytes, or with whole blocks before it.
#[inline]
pub fn shows_packet(section: Order, octets: &[u8]) -> bool {
    let mut order = section;
    let mut rest = octets;
    while !begins_packet(order, rest) {
        let Ok(head) = Head::parse(order, rest) else {
            return false;
        };
        let len = head.total_len as usize;
        if rest.len() < len {
            return false;
        }
        order = head.order;
        rest = &rest[len..];
    }
    true
}

// Whether the octets begin with a whole block that holds a packet.
#[inline]
fn begins_packet(section: Order, octets: &[u8]) -> bool {
    if octets.len() < HEAD_LEN || !holds_packet(section.u32_at(octets, field::KIND)) {
        return false;
    }
    let total_len = section.u32_at(octets, field::TOTAL_LEN);
    total_len >= 12
        && total_len % 4 == 0
        && total_len <= MOST_BLOCK_OCTETS
        && total_len as usize <= octets.len()
}

/// Whether the last four bytes of a block repeat its length. Requires at least 12 bytes.
///
/// # Panics
///
/// May panic where what is asked for above does not hold.
pub fn is_closed(order: Order, block: &[u8]) -> bool {
    let len = block.len();
    order.u32_at(block, len - field::TRAILER..len) as usize == len
}

/// Accepts a section header of version 1.0 or 1.2. Refused where it is shorter than 28 bytes (`Malformed`, with
/// `Short`) or of another version (`Version`).
pub fn check_section(order: Order, block: &[u8]) -> Result<(), Ending> {
    if block.len() < field::SECTION_END {
        return Err(Ending::Malformed(Refusal::Short));
    }
    let minor = order.u16_at(block, field::MINOR);
    if order.u16_at(block, field::MAJOR) != 1 || (minor != 0 && minor != 2) {
        return Err(Ending::Version);
    }
    Ok(())
}

/// An interface description.
#[derive(Debug, PartialEq, Eq, Clone, Copy)]
pub struct Interface {
    /// The type of the link.
    pub link_type: u16,
    /// The most bytes of a packet that are kept, or 0 where all are.
    pub snap_len: u32,
    /// The resolution of the times: below 128 a number of decimal digits of a second, from 128 on 128 more than a
    /// number of binary digits.
    pub resolution: u8,
    /// The seconds that are added to each time.
    pub offset: i64,
}

impl Interface {
    /// The interface that a block describes. Refused where the block is shorter than 20 bytes (`Short`). Options that
    /// are cut short are ignored.
    pub fn parse(order: Order, block: &[u8]) -> Result<Interface, Refusal> {
        let len = block.len();
        if len < field::OPTIONS + field::TRAILER {
            return Err(Refusal::Short);
        }
        let options = block.range(field::OPTIONS, len - field::TRAILER);
        Ok(Interface {
            link_type: order.u16_at(block, field::LINK_TYPE),
            snap_len: order.u32_at(block, field::SNAP_LEN),
            resolution: resolution(order, options),
            offset: offset(order, options),
        })
    }
}

// The resolution that the options give, or else microseconds.
fn resolution(order: Order, options: &[u8]) -> u8 {
    match first_option(order, options, IF_TSRESOL, 1) {
        Some(value) => value[0],
        None => MICROSECONDS,
    }
}

// The seconds that the options add to each time, or else 0.
fn offset(order: Order, options: &[u8]) -> i64 {
    match first_option(order, options, IF_TSOFFSET, 8) {
        Some(value) => order.i64_of(value),
        None => 0,
    }
}

// The value of the first option of this code whose value has this many bytes.
fn first_option(order: Order, options: &[u8], code: u16, len: u16) -> Option<&[u8]> {
    let mut rest = options;
    while rest.len() >= field::VALUE {
        let rest_code = order.u16_at(rest, field::CODE);
        let rest_len = order.u16_at(rest, field::LENGTH);
        let end = field::VALUE + (rest_len as usize + 3) / 4 * 4;
        if rest.len() < end {
            return None;
        }
        if rest_code == code && rest_len == len {
            return Some(&rest[field::VALUE..field::VALUE + len as usize]);
        }
        if rest_code == 0 {
            return None;
        }
        rest = &rest[end..];
    }
    None
}
