// Made from crates/icmp4_wire/src/igmp.rt by rust/erase.
//! The Internet Group Management Protocol, versions 1 and 2 (RFC 1112 appendix I, RFC 2236), with the codes of
//! RFC 3376.
//!
//! ```
//! use control_wire::Ipv4Address;
//! use control_wire::igmp::{Packet, Repr};
//!
//! // A leave message.
//! let octets = [0x17, 0, 0x08, 0xfe, 224, 0, 0, 1];
//! let packet = Packet::new_checked(&octets)?;
//! assert!(packet.verify_checksum());
//! let group_addr = Ipv4Address::new(224, 0, 0, 1);
//! assert_eq!(Repr::parse(&packet)?, Repr::LeaveGroup { group_addr });
//! # Ok::<(), control_wire::Error>(())
//! ```

mod code;
mod packet;
mod refusal;
mod repr;
mod tables;

pub use code::{code_of_duration, duration_of_code};
pub use packet::Packet;
pub use refusal::Refusal;
pub use repr::{IgmpVersion, Repr};
pub use tables::Message;

// The fields of a message.
mod field {
    use crate::wirebase::Field;

    pub const TYPE: Field = 0..1;

    pub const MAX_RESP_CODE: Field = 1..2;

    pub const CHECKSUM: Field = 2..4;

    pub const GROUP_ADDRESS: Field = 4..8;
}
