// Made from crates/header_wire/src/arp/tables.rt by rust/erase.
//! The operations of packets of ARP.

use core::fmt;

/// What a packet is for (RFC 826).
#[derive(Debug, PartialEq, Eq, PartialOrd, Ord, Clone, Copy)]
pub enum Operation {
    /// The sender asks the target for its hardware address: 1.
    Request,
    /// The sender tells its own: 2.
    Reply,
    /// Any other operation, by its number.
    Unknown(u16),
}

impl From<u16> for Operation {
    fn from(number: u16) -> Operation {
        match number {
            1 => Operation::Request,
            2 => Operation::Reply,
            other => Operation::Unknown(other),
        }
    }
}

impl From<Operation> for u16 {
    fn from(operation: Operation) -> u16 {
        match operation {
            Operation::Request => 1,
            Operation::Reply => 2,
            Operation::Unknown(other) => other,
        }
    }
}

/// The name, or the number where there is none, as `operation 3`.
impl fmt::Display for Operation {
    fn fmt(&self, f: &mut fmt::Formatter<'_>) -> fmt::Result {
        match self {
            Operation::Request => write!(f, "request"),
            Operation::Reply => write!(f, "reply"),
            Operation::Unknown(number) => write!(f, "operation {number}"),
        }
    }
}
