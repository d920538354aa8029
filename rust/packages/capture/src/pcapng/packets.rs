// Made from crates/capture/src/pcapng/packets.rt by rust/erase.
//! The packets that blocks hold (draft-ietf-opsawg-pcapng sections 4.3, 4.4 and appendix A).

use super::{ENHANCED_PACKET, Interface, OBSOLETE_PACKET, SIMPLE_PACKET, field};
use crate::ending::Refusal;
use crate::order::Order;
use crate::packet::Packet;
use crate::time::Time;
use control_wire::Octets;

/// The packet that a block of a kind holds, in a section with these interfaces. Refused where the block is too short
/// (`Short`), is of a kind that holds no packet (`Kind`), names an interface that is not described (`Interface`), or is
/// shorter than its packet (`CapturedLength`).
#[inline]
pub fn parse_packet(
    order: Order,
    kind: u32,
    interfaces: &[Interface],
    block: &[u8],
) -> Result<Packet, Refusal> {
    if block.len() < field::HEAD_END {
        return Err(Refusal::Short);
    }
    match kind {
        OBSOLETE_PACKET => {
            let number = order.u16_at(block, field::SHORT_INTERFACE) as u32;
            timed(order, interfaces, number, block)
        }
        SIMPLE_PACKET => simple(order, interfaces, block),
        ENHANCED_PACKET => {
            let number = order.u32_at(block, field::INTERFACE);
            timed(order, interfaces, number, block)
        }
        _ => Err(Refusal::Kind(kind)),
    }
}

// An enhanced or an obsolete packet, of the interface of this number.
#[inline]
fn timed(
    order: Order,
    interfaces: &[Interface],
    number: u32,
    block: &[u8],
) -> Result<Packet, Refusal> {
    let len = block.len();
    if len < field::PACKET + field::TRAILER {
        return Err(Refusal::Short);
    }
    let Some(interface) = interfaces.get(number as usize) else {
        return Err(Refusal::Interface(number));
    };
    let captured_len = order.u32_at(block, field::CAPTURED_LEN);
    if captured_len as u64 > (len - field::PACKET - field::TRAILER) as u64 {
        return Err(Refusal::CapturedLength(captured_len));
    }
    let high = order.u32_at(block, field::TICKS_HIGH);
    let low = order.u32_at(block, field::TICKS_LOW);
    let told = Time::of_ticks(
        high as u64 * 4_294_967_296 + low as u64,
        interface.resolution,
    );
    Ok(Packet {
        time: Some(told.moved(interface.offset)),
        link_type: interface.link_type,
        original_len: order.u32_at(block, field::ORIGINAL_LEN),
        start: field::PACKET,
        captured_len,
    })
}

// A simple packet, which belongs to the first interface and has no time.
fn simple(order: Order, interfaces: &[Interface], block: &[u8]) -> Result<Packet, Refusal> {
    let len = block.len();
    if len < field::SIMPLE_PACKET + field::TRAILER {
        return Err(Refusal::Short);
    }
    let Some(interface) = interfaces.get(0) else {
        return Err(Refusal::Interface(0));
    };
    let original_len = order.u32_at(block, field::SIMPLE_ORIGINAL_LEN);
    let captured_len = kept_len(interface.snap_len, original_len);
    if captured_len as u64 > (len - field::SIMPLE_PACKET - field::TRAILER) as u64 {
        return Err(Refusal::CapturedLength(captured_len));
    }
    Ok(Packet {
        time: None,
        link_type: interface.link_type,
        original_len,
        start: field::SIMPLE_PACKET,
        captured_len,
    })
}

// The number of bytes of a packet that are kept, where this many are at most, or all for 0.
fn kept_len(most: u32, original: u32) -> u32 {
    if most == 0 {
        original
    } else {
        most.min(original)
    }
}
