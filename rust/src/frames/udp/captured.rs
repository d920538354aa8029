// Made from crates/frame_wire/src/udp/captured.rt by rust/erase.
//! UDP datagrams as far as they were captured.

use super::{HEADER_LEN, Refusal, UdpPacket};
use crate::frames::datagram::Extent;
use crate::frames::link::behind;
use core::fmt;

/// A UDP datagram as far as it was captured.
///
/// ```
/// use control_wire::frames::{CapturedUdp, Extent};
///
/// // The header of a datagram with 100 bytes of data, of which a capture kept two.
/// let octets = [0, 53, 0x9c, 0x40, 0, 108, 0, 0, 0x12, 0x34];
/// let captured = CapturedUdp::parse(&octets).unwrap();
/// assert_eq!((captured.src_port, captured.dst_port), (53, 40_000));
/// assert_eq!(captured.payload, [0x12, 0x34]);
/// assert_eq!(captured.extent, Extent::Cut { missing: 98 });
/// ```
#[derive(Debug, PartialEq, Eq, Clone, Copy)]
pub struct CapturedUdp<'a> {
    /// The source port, or 0 for none.
    pub src_port: u16,
    /// The destination port.
    pub dst_port: u16,
    /// The data; cut where the datagram is.
    pub payload: &'a [u8],
    /// How much of the datagram was captured: `Whole` or `Cut`.
    pub extent: Extent,
}

impl<'a> CapturedUdp<'a> {
    /// The datagram at the start of the octets, whole or cut; what follows it is ignored. A whole one is what
    /// `UdpPacket::check_len` accepts. One that goes on past the octets has the data that are there, and the number of
    /// missing bytes. Refused with `Short` where fewer than 8 bytes are there, and with `Length` where the length is
    /// below 8, as the 0 of a jumbogram of which fewer than 65,536 bytes are there. No checksum is verified, since that
    /// of a cut datagram can't be; `UdpRepr::parse` verifies that of a whole one.
    pub fn parse(octets: &'a [u8]) -> Result<CapturedUdp<'a>, Refusal> {
        let packet = UdpPacket::new_unchecked(octets);
        match packet.refusal() {
            None => Ok(CapturedUdp {
                src_port: packet.src_port(),
                dst_port: packet.dst_port(),
                payload: packet.payload(),
                extent: Extent::Whole,
            }),
            Some(Refusal::Cut(total)) => Ok(CapturedUdp {
                src_port: packet.src_port(),
                dst_port: packet.dst_port(),
                payload: behind(octets, HEADER_LEN),
                extent: Extent::Cut {
                    missing: total as usize - octets.len(),
                },
            }),
            Some(refusal) => Err(refusal),
        }
    }
}

/// The ports, the number of captured bytes of data, and how much of the datagram was captured.
impl fmt::Display for CapturedUdp<'_> {
    fn fmt(&self, f: &mut fmt::Formatter<'_>) -> fmt::Result {
        let src_port = self.src_port;
        let dst_port = self.dst_port;
        let len = self.payload.len();
        let extent = self.extent;
        write!(f, "UDP src={src_port} dst={dst_port} len={len} {extent}")
    }
}
