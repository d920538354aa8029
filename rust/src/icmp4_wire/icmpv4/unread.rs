// Made from crates/icmp4_wire/src/icmpv4/unread.rt by rust/erase.
//! Prints octets that are refused: their type and their code, by the names of their cases.

use super::{DstUnreachable, Message, TimeExceeded};
use core::fmt;

// The type and the code of a message that is refused.
#[derive(Clone, Copy)]
pub(super) struct Unread {
    pub(super) kind: Message,
    pub(super) code: u8,
}

impl fmt::Display for Unread {
    fn fmt(&self, f: &mut fmt::Formatter<'_>) -> fmt::Result {
        let kind = MessageName(self.kind);
        let code = self.code;
        match self.kind {
            Message::DstUnreachable => {
                let reason = UnreachableName(code.into());
                write!(f, "ICMPv4 (wire::Error) type={kind} code={reason}")
            }
            Message::TimeExceeded => {
                let reason = TimeExceededName(code.into());
                write!(f, "ICMPv4 (wire::Error) type={kind} code={reason}")
            }
            _ => write!(f, "ICMPv4 (wire::Error) type={kind} code={code}"),
        }
    }
}

// The name of a type.
#[derive(Clone, Copy)]
struct MessageName(Message);

impl fmt::Display for MessageName {
    fn fmt(&self, f: &mut fmt::Formatter<'_>) -> fmt::Result {
        let words = match self.0 {
            Message::EchoReply => "EchoReply",
            Message::DstUnreachable => "DstUnreachable",
            Message::Redirect => "Redirect",
            Message::EchoRequest => "EchoRequest",
            Message::RouterAdvert => "RouterAdvert",
            Message::RouterSolicit => "RouterSolicit",
            Message::TimeExceeded => "TimeExceeded",
            Message::ParamProblem => "ParamProblem",
            Message::Timestamp => "Timestamp",
            Message::TimestampReply => "TimestampReply",
            Message::Unknown(number) => return fmt_unknown(f, number),
        };
        f.write_str(words)
    }
}

// The name of a reason.
#[derive(Clone, Copy)]
struct UnreachableName(DstUnreachable);

impl fmt::Display for UnreachableName {
    fn fmt(&self, f: &mut fmt::Formatter<'_>) -> fmt::Result {
        let words = match self.0 {
            DstUnreachable::NetUnreachable => "NetUnreachable",
            DstUnreachable::HostUnreachable => "HostUnreachable",
            DstUnreachable::ProtoUnreachable => "ProtoUnreachable",
            DstUnreachable::PortUnreachable => "PortUnreachable",
            DstUnreachable::FragRequired => "FragRequired",
            DstUnreachable::SrcRouteFailed => "SrcRouteFailed",
            DstUnreachable::DstNetUnknown => "DstNetUnknown",
            DstUnreachable::DstHostUnknown => "DstHostUnknown",
            DstUnreachable::SrcHostIsolated => "SrcHostIsolated",
            DstUnreachable::NetProhibited => "NetProhibited",
            DstUnreachable::HostProhibited => "HostProhibited",
            DstUnreachable::NetUnreachToS => "NetUnreachToS",
            DstUnreachable::HostUnreachToS => "HostUnreachToS",
            DstUnreachable::CommProhibited => "CommProhibited",
            DstUnreachable::HostPrecedViol => "HostPrecedViol",
            DstUnreachable::PrecedCutoff => "PrecedCutoff",
            DstUnreachable::Unknown(number) => return fmt_unknown(f, number),
        };
        f.write_str(words)
    }
}

// The name of a reason.
#[derive(Clone, Copy)]
struct TimeExceededName(TimeExceeded);

impl fmt::Display for TimeExceededName {
    fn fmt(&self, f: &mut fmt::Formatter<'_>) -> fmt::Result {
        let words = match self.0 {
            TimeExceeded::TtlExpired => "TtlExpired",
            TimeExceeded::FragExpired => "FragExpired",
            TimeExceeded::Unknown(number) => return fmt_unknown(f, number),
        };
        f.write_str(words)
    }
}

// Prints a number without a name.
fn fmt_unknown(f: &mut fmt::Formatter<'_>, number: u8) -> fmt::Result {
    write!(f, "Unknown({number})")
}
