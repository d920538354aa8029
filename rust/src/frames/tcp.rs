// Made from crates/frame_wire/src/tcp.rt by rust/erase.
//! Segments of TCP (RFC 9293).

use crate::frames::datagram::Addresses;
use crate::frames::link::behind;
use crate::wirebase::{IpProtocol, Octets, checksum};

mod display;
mod prefixed;

pub use prefixed::{Messages, Prefixed};

/// A segment (RFC 9293 section 3.1).
///
/// ```
/// use control_wire::frames::TcpSegment;
///
/// // A header with four bytes of options, before two bytes of data.
/// let octets = [
///     0x9c, 0x40, 0, 53, 0, 0, 0, 1, 0, 0, 0, 1, 0x60, 0x18, 1, 0, 0, 0, 0, 0, 1, 1, 1, 1, b'o', b'k',
/// ];
/// let segment = TcpSegment::parse(&octets).unwrap();
/// assert_eq!((segment.src_port, segment.dst_port), (40_000, 53));
/// assert_eq!(segment.payload, b"ok");
/// ```
#[derive(Debug, PartialEq, Eq, Clone, Copy)]
pub struct TcpSegment<'a> {
    /// The source port.
    pub src_port: u16,
    /// The destination port.
    pub dst_port: u16,
    /// The data: what follows the header and its options.
    pub payload: &'a [u8],
}

/// Why octets are refused as a segment: the check that fails first.
#[derive(Debug, PartialEq, Eq, Clone, Copy)]
#[non_exhaustive]
pub enum Refusal {
    /// Fewer than the 20 bytes that each header has.
    Short,
    /// The header length is below 20 bytes; this is the length, four times the data offset.
    HeaderLen(u8),
    /// Fewer bytes than the header has with its options; this is its length, 20 to 60.
    Cut(u8),
}

// The fields that are read.
mod field {
    use crate::wirebase::Field;

    pub const SRC_PORT: Field = 0..2;

    pub const DST_PORT: Field = 2..4;

    pub const DATA_OFFSET: usize = 12;
}

// The bytes of a header without options.
const HEADER_LEN: usize = 20;

impl<'a> TcpSegment<'a> {
    /// The segment that the octets are: the payload of a datagram. Its options are passed, and its checksum is not
    /// verified, which [`verify_checksum`] does.
    pub fn parse(octets: &'a [u8]) -> Result<TcpSegment<'a>, Refusal> {
        if octets.len() < HEADER_LEN {
            return Err(Refusal::Short);
        }
        let header_len = 4 * (octets[field::DATA_OFFSET] / 16);
        if (header_len as usize) < HEADER_LEN {
            return Err(Refusal::HeaderLen(header_len));
        }
        if octets.len() < header_len as usize {
            return Err(Refusal::Cut(header_len));
        }
        Ok(TcpSegment {
            src_port: octets.u16_at(field::SRC_PORT),
            dst_port: octets.u16_at(field::DST_PORT),
            payload: behind(octets, header_len as usize),
        })
    }
}

/// Whether the checksum of a segment holds, which is over the pseudo header of these addresses, the header and the data
/// (RFC 9293 section 3.1). Of octets that [`TcpSegment::parse`] refuses, and of a segment that is cut, as by a capture,
/// the answer means nothing.
pub fn verify_checksum(addresses: &Addresses, octets: &[u8]) -> bool {
    match u32::try_from(octets.len()) {
        Ok(len) => checksum::is_good(octets, addresses.sum_before(IpProtocol::Tcp, len)),
        Err(_) => false,
    }
}
