// Made from crates/capture/src/packet.rt by rust/erase.
//! Packets that a capture holds.

use crate::time::Time;

/// A packet, by its place in a record or a block.
#[derive(Debug, PartialEq, Eq, Clone, Copy)]
pub struct Packet {
    /// When it was captured. A simple packet of a pcapng file has no time.
    pub time: Option<Time>,
    /// The type of the link.
    pub link_type: u16,
    /// The packet's original length in bytes.
    pub original_len: u32,
    /// The offset of its bytes in the record or block.
    pub start: usize,
    /// The number of its bytes that are kept.
    pub captured_len: u32,
}
