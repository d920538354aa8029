// Made from crates/icmp4_wire/src/icmpv4.rt by rust/erase.
//! The Internet Control Message Protocol (RFC 792).
//!
//! ```
//! use control_wire::ChecksumCapabilities;
//! use control_wire::icmpv4::{Packet, Repr};
//!
//! let octets = [8, 0, 0x8e, 0xfe, 0x12, 0x34, 0xab, 0xcd, 0xaa, 0x00, 0x00, 0xff];
//! let packet = Packet::new_checked(&octets)?;
//! let message = Repr::parse(&packet, &ChecksumCapabilities::default())?;
//! assert_eq!(message.to_string(), "ICMPv4 echo request id=4660 seq=43981 len=4");
//! # Ok::<(), control_wire::Error>(())
//! ```

mod packet;
mod refusal;
mod repr;
mod tables;
mod unread;

pub use packet::Packet;
pub use refusal::Refusal;
pub use repr::Repr;
pub use tables::{DstUnreachable, Message, ParamProblem, Redirect, TimeExceeded};

// The fields of a message.
mod field {
    use crate::wirebase::Field;

    pub const TYPE: Field = 0..1;

    pub const CODE: Field = 1..2;

    pub const CHECKSUM: Field = 2..4;

    pub const ECHO_IDENT: Field = 4..6;

    pub const ECHO_SEQNO: Field = 6..8;

    pub const HEADER_END: usize = 8;
}
