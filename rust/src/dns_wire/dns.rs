// Made from crates/dns_wire/src/dns.rt by rust/erase.
//! Messages of the Domain Name System (RFC 1035 section 4).
//!
//! ```
//! use control_wire::dns::{Flags, Opcode, Packet, Question, Repr, Type};
//!
//! let query = Repr {
//!     transaction_id: 0x1234,
//!     opcode: Opcode::Query,
//!     flags: Flags::RECURSION_DESIRED,
//!     question: Question { name: b"\x07example\x03com\x00", type_: Type::A },
//! };
//! let mut octets = [0; 512];
//! let octets = &mut octets[..query.buffer_len()];
//! query.emit_into(octets);
//!
//! let packet = Packet::new_checked(&*octets)?;
//! let (_, question) = Question::parse(packet.payload())?;
//! let labels: Vec<&[u8]> = packet.parse_name(question.name).collect::<Result<_, _>>()?;
//! assert_eq!(labels, [&b"example"[..], b"com"]);
//! # Ok::<(), control_wire::Error>(())
//! ```

mod display;
mod name;
mod packet;
pub(crate) mod part;
mod question;
mod record;
mod refusal;
mod repr;
mod tables;

pub use name::NameIter;
pub use packet::Packet;
pub use part::split_name;
pub use question::Question;
pub use record::{Record, RecordData};
pub use refusal::{NameRefusal, Refusal};
pub use repr::Repr;
pub use tables::{Flags, Opcode, Rcode, Type};

/// The UDP and TCP port of servers (RFC 1035 section 4.2).
pub const SERVER_PORT: u16 = 53;

/// The UDP port of multicast DNS (RFC 6762 section 3).
pub const MULTICAST_PORT: u16 = 5353;
