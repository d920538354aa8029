// Made from crates/icmp6_wire/src/icmpv6.rt by rust/erase.
//! The Internet Control Message Protocol of IPv6 (RFC 4443).
//!
//! ```
//! use control_wire::icmpv6::{Packet, Repr};
//! use control_wire::{ChecksumCapabilities, IPV6_LINK_LOCAL_ALL_NODES, Ipv6Address};
//!
//! let src_addr = Ipv6Address::new(0xfe80, 0, 0, 0, 0, 0, 0, 1);
//! let dst_addr = IPV6_LINK_LOCAL_ALL_NODES;
//! let checksums = ChecksumCapabilities::default();
//! let message = Repr::EchoRequest { ident: 1, seq_no: 2, data: b"ping" };
//! let mut octets = [0; 64];
//! let octets = &mut octets[..message.packet_len()];
//! message.emit_into(&src_addr, &dst_addr, octets, &checksums);
//!
//! let packet = Packet::new_checked(&*octets)?;
//! assert_eq!(Repr::parse(&src_addr, &dst_addr, &packet, &checksums)?, message);
//! # Ok::<(), control_wire::Error>(())
//! ```

mod display;
mod packet;
mod quote;
mod reading;
mod refusal;
mod repr;
mod tables;

use crate::wirebase::{IPV6_HEADER_LEN, IPV6_MIN_MTU};
pub use packet::Packet;
pub use refusal::Refusal;
pub use repr::Repr;
pub use tables::{DstUnreachable, Message, ParamProblem, TimeExceeded};

// The most bytes that an error has, and the most that it quotes after a header, so that every link can carry its packet
// (RFC 4443 section 2.4).
const MAX_ERROR_PACKET_LEN: usize = IPV6_MIN_MTU - IPV6_HEADER_LEN;

const MAX_QUOTED_DATA: usize = MAX_ERROR_PACKET_LEN - field::HEADER_END - IPV6_HEADER_LEN;

// The types of echoes (RFC 4443 sections 4.1 and 4.2).
const ECHO_REQUEST: u8 = 128;

const ECHO_REPLY: u8 = 129;

// The fields of a message.
pub(crate) mod field {
    use crate::wirebase::Field;

    pub const TYPE: Field = 0..1;

    pub const CODE: Field = 1..2;

    pub const CHECKSUM: Field = 2..4;

    pub const UNUSED: Field = 4..8;

    pub const MTU: Field = 4..8;

    pub const POINTER: Field = 4..8;

    pub const ECHO_IDENT: Field = 4..6;

    pub const ECHO_SEQNO: Field = 6..8;

    pub const HEADER_END: usize = 8;

    // The fields of neighbor discovery (RFC 4861 section 4).
    pub const RETRANS_TM: Field = 12..16;

    pub const TARGET_ADDR: Field = 8..24;

    pub const DEST_ADDR: Field = 24..40;

    // The fields of multicast listener discovery (RFC 3810 section 5).
    pub const QUERY_RESERVED: Field = 6..8;

    pub const SQRV: Field = 24..25;

    pub const QUERY_NUM_SRCS: Field = 26..28;

    pub const REPORT_RESERVED: Field = 4..6;

    pub const NR_MCAST_RCRDS: Field = 6..8;
}
