// Made from crates/icmp6_wire/src/mld.rt by rust/erase.
//! Multicast listener discovery, version 2 (RFC 3810).
//!
//! Version 1 (RFC 2710) is not read. Its reports (type 131) and its done messages (type 132) are refused with
//! [`icmpv6::Refusal::UnknownType`](crate::icmpv6::Refusal::UnknownType). Its queries have the type of version 2, 130,
//! and 24 bytes where those of version 2 have 28 or more (RFC 3810 section 8.1): they are refused with
//! [`icmpv6::Refusal::Length`](crate::icmpv6::Refusal::Length).
//!
//! ```
//! use control_wire::Ipv6Address;
//! use control_wire::icmpv6::Packet;
//! use control_wire::mld::Repr;
//!
//! // A general query of a router.
//! let mut octets = [0; 28];
//! octets[0] = 130;
//! let packet = Packet::new_checked(&octets)?;
//! match Repr::parse(&packet)? {
//!     Repr::Query { mcast_addr, .. } => assert_eq!(mcast_addr, Ipv6Address::UNSPECIFIED),
//!     _ => panic!("not a query"),
//! }
//! # Ok::<(), control_wire::Error>(())
//! ```

mod display;
mod iterators;
mod packet;
mod record;
mod refusal;
mod repr;
mod tables;

pub use iterators::{Records, Sources};
pub use record::{AddressRecord, AddressRecordRepr};
pub use refusal::{RecordRefusal, Refusal};
pub use repr::Repr;
pub(crate) use repr::{read_query, read_report};
pub use tables::RecordType;

mod field {
    use crate::wirebase::Field;

    // The fields of a query (RFC 3810 section 5.1).
    pub const MAX_RESP_CODE: Field = 4..6;

    pub const QUERY_MCAST_ADDR: Field = 8..24;

    pub const SQRV: Field = 24..25;

    pub const QQIC: Field = 25..26;

    pub const QUERY_NUM_SRCS: Field = 26..28;

    // The fields of a report (RFC 3810 section 5.2).
    pub const NR_MCAST_RCRDS: Field = 6..8;

    // The fields of a record in a report.
    pub const RECORD_TYPE: Field = 0..1;

    pub const AUX_DATA_LEN: Field = 1..2;

    pub const RECORD_NUM_SRCS: Field = 2..4;

    pub const RECORD_MCAST_ADDR: Field = 4..20;
}
