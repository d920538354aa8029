// Made from crates/icmp4_wire/src/igmp/tables.rt by rust/erase.
//! The numbers of messages (RFC 2236 section 2.1).

use core::fmt;

/// The type of a message, one byte (RFC 2236 section 2.1).
#[derive(Debug, PartialEq, Eq, PartialOrd, Ord, Clone, Copy)]
pub enum Message {
    /// A router asks which groups have members.
    MembershipQuery,
    /// A host is a member of a group, in version 2.
    MembershipReportV2,
    /// A host leaves a group.
    LeaveGroup,
    /// A host is a member of a group, in version 1.
    MembershipReportV1,
    /// Any other type, by its number.
    Unknown(u8),
}

impl From<u8> for Message {
    fn from(number: u8) -> Message {
        match number {
            0x11 => Message::MembershipQuery,
            0x16 => Message::MembershipReportV2,
            0x17 => Message::LeaveGroup,
            0x12 => Message::MembershipReportV1,
            other => Message::Unknown(other),
        }
    }
}

impl From<Message> for u8 {
    fn from(message: Message) -> u8 {
        match message {
            Message::MembershipQuery => 0x11,
            Message::MembershipReportV2 => 0x16,
            Message::LeaveGroup => 0x17,
            Message::MembershipReportV1 => 0x12,
            Message::Unknown(other) => other,
        }
    }
}

/// The type in words, or its number.
impl fmt::Display for Message {
    fn fmt(&self, f: &mut fmt::Formatter<'_>) -> fmt::Result {
        let words = match self {
            Message::MembershipQuery => "membership query",
            Message::MembershipReportV2 => "version 2 membership report",
            Message::LeaveGroup => "leave group",
            Message::MembershipReportV1 => "version 1 membership report",
            Message::Unknown(number) => return write!(f, "{number}"),
        };
        f.write_str(words)
    }
}
