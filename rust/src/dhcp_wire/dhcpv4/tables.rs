// Made from crates/dhcp_wire/src/dhcpv4/tables.rt by rust/erase.
//! The numbers of DHCP: operations, types of message, flags, and kinds of option (RFC 2131, RFC 2132).

use bitflags::Flags as _;
use core::fmt;

/// The operation of a packet, one byte (RFC 2131 section 2).
#[derive(Debug, PartialEq, Eq, PartialOrd, Ord, Clone, Copy)]
pub enum OpCode {
    /// From a client.
    Request,
    /// From a server.
    Reply,
    /// Any other operation, by its number.
    Unknown(u8),
}

impl From<u8> for OpCode {
    fn from(number: u8) -> OpCode {
        match number {
            1 => OpCode::Request,
            2 => OpCode::Reply,
            other => OpCode::Unknown(other),
        }
    }
}

impl From<OpCode> for u8 {
    fn from(opcode: OpCode) -> u8 {
        match opcode {
            OpCode::Request => 1,
            OpCode::Reply => 2,
            OpCode::Unknown(other) => other,
        }
    }
}

/// The name of an operation, as `BOOTREQUEST`; one without a name prints its number, as `unknown 3`.
impl fmt::Display for OpCode {
    fn fmt(&self, f: &mut fmt::Formatter<'_>) -> fmt::Result {
        match self {
            OpCode::Request => f.write_str("BOOTREQUEST"),
            OpCode::Reply => f.write_str("BOOTREPLY"),
            OpCode::Unknown(other) => write!(f, "unknown {other}"),
        }
    }
}

/// The type of a message, one byte (RFC 2132 section 9.6).
#[derive(Debug, PartialEq, Eq, PartialOrd, Ord, Clone, Copy)]
pub enum MessageType {
    /// A client looks for servers.
    Discover,
    /// A server offers an address.
    Offer,
    /// A client asks for an offered address, or for more time.
    Request,
    /// A client found that the address is in use.
    Decline,
    /// A server grants what was asked.
    Ack,
    /// A server refuses what was asked.
    Nak,
    /// A client gives its address back.
    Release,
    /// A client that has an address asks for the rest.
    Inform,
    /// Any other type, by its number.
    Unknown(u8),
}

impl From<u8> for MessageType {
    fn from(number: u8) -> MessageType {
        message_type(number)
    }
}

// The type of a number.
fn message_type(number: u8) -> MessageType {
    match number {
        1 => MessageType::Discover,
        2 => MessageType::Offer,
        3 => MessageType::Request,
        4 => MessageType::Decline,
        5 => MessageType::Ack,
        6 => MessageType::Nak,
        7 => MessageType::Release,
        8 => MessageType::Inform,
        other => MessageType::Unknown(other),
    }
}

impl From<MessageType> for u8 {
    fn from(message: MessageType) -> u8 {
        match message {
            MessageType::Discover => 1,
            MessageType::Offer => 2,
            MessageType::Request => 3,
            MessageType::Decline => 4,
            MessageType::Ack => 5,
            MessageType::Nak => 6,
            MessageType::Release => 7,
            MessageType::Inform => 8,
            MessageType::Unknown(other) => other,
        }
    }
}

/// The name of a type, as `DISCOVER`; one without a name prints its number, as `unknown 34`.
impl fmt::Display for MessageType {
    fn fmt(&self, f: &mut fmt::Formatter<'_>) -> fmt::Result {
        let name = match self {
            MessageType::Discover => "DISCOVER",
            MessageType::Offer => "OFFER",
            MessageType::Request => "REQUEST",
            MessageType::Decline => "DECLINE",
            MessageType::Ack => "ACK",
            MessageType::Nak => "NAK",
            MessageType::Release => "RELEASE",
            MessageType::Inform => "INFORM",
            MessageType::Unknown(other) => return write!(f, "unknown {other}"),
        };
        f.write_str(name)
    }
}

impl MessageType {
    // The operation that a packet of this type has: of a type without a name it is `Unknown(0)`.
    pub(super) fn opcode(&self) -> OpCode {
        match *self {
            MessageType::Discover
            | MessageType::Request
            | MessageType::Decline
            | MessageType::Release
            | MessageType::Inform => OpCode::Request,
            MessageType::Offer | MessageType::Ack | MessageType::Nak => OpCode::Reply,
            MessageType::Unknown(_) => OpCode::Unknown(0),
        }
    }
}

bitflags::bitflags! {
    /// The flags of a packet, two bytes (RFC 2131 section 2).
    #[derive(Debug, PartialEq, Eq, PartialOrd, Ord, Hash, Clone, Copy)]
    pub struct Flags: u16 {
        /// The client can't receive an answer to its own address yet (RFC 2131 section 4.1).
        const BROADCAST = 0x8000;
    }
}

/// Prints `broadcast` where the answer is to be sent to everyone, and `-` otherwise. Bits that have no name are not
/// printed.
impl fmt::Display for Flags {
    fn fmt(&self, f: &mut fmt::Formatter<'_>) -> fmt::Result {
        if self.bits() & 0x8000 == 0 {
            return f.write_str("-");
        }
        f.write_str("broadcast")
    }
}
