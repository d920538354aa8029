// Made from crates/icmp4_wire/src/icmpv4/tables.rt by rust/erase.
//! The numbers of messages and of their codes (RFC 792).

use core::fmt;

/// The type of a message, one byte (RFC 792).
#[derive(Debug, PartialEq, Eq, PartialOrd, Ord, Clone, Copy)]
pub enum Message {
    /// Echo reply.
    EchoReply,
    /// Destination unreachable.
    DstUnreachable,
    /// Redirect.
    Redirect,
    /// Echo request.
    EchoRequest,
    /// Router advertisement (RFC 1256).
    RouterAdvert,
    /// Router solicitation (RFC 1256).
    RouterSolicit,
    /// Time exceeded.
    TimeExceeded,
    /// Parameter problem.
    ParamProblem,
    /// Timestamp.
    Timestamp,
    /// Timestamp reply.
    TimestampReply,
    /// Any other type, by its number.
    Unknown(u8),
}

impl From<u8> for Message {
    fn from(number: u8) -> Message {
        message_numbered(number)
    }
}

// The message of a type.
fn message_numbered(number: u8) -> Message {
    match number {
        0 => Message::EchoReply,
        3 => Message::DstUnreachable,
        5 => Message::Redirect,
        8 => Message::EchoRequest,
        9 => Message::RouterAdvert,
        10 => Message::RouterSolicit,
        11 => Message::TimeExceeded,
        12 => Message::ParamProblem,
        13 => Message::Timestamp,
        14 => Message::TimestampReply,
        other => Message::Unknown(other),
    }
}

impl From<Message> for u8 {
    fn from(message: Message) -> u8 {
        match message {
            Message::EchoReply => 0,
            Message::DstUnreachable => 3,
            Message::Redirect => 5,
            Message::EchoRequest => 8,
            Message::RouterAdvert => 9,
            Message::RouterSolicit => 10,
            Message::TimeExceeded => 11,
            Message::ParamProblem => 12,
            Message::Timestamp => 13,
            Message::TimestampReply => 14,
            Message::Unknown(other) => other,
        }
    }
}

/// The type in words, or its number.
impl fmt::Display for Message {
    fn fmt(&self, f: &mut fmt::Formatter<'_>) -> fmt::Result {
        let words = match self {
            Message::EchoReply => "echo reply",
            Message::DstUnreachable => "destination unreachable",
            Message::Redirect => "message redirect",
            Message::EchoRequest => "echo request",
            Message::RouterAdvert => "router advertisement",
            Message::RouterSolicit => "router solicitation",
            Message::TimeExceeded => "time exceeded",
            Message::ParamProblem => "parameter problem",
            Message::Timestamp => "timestamp",
            Message::TimestampReply => "timestamp reply",
            Message::Unknown(number) => return write!(f, "{number}"),
        };
        f.write_str(words)
    }
}

/// Why a destination is unreachable: the code of such a message, one byte (RFC 792, RFC 1122 section 3.2.2.1,
/// RFC 1812 section 5.2.7.1).
#[derive(Debug, PartialEq, Eq, PartialOrd, Ord, Clone, Copy)]
pub enum DstUnreachable {
    /// The network is unreachable.
    NetUnreachable,
    /// The host is unreachable.
    HostUnreachable,
    /// The protocol is unreachable.
    ProtoUnreachable,
    /// The port is unreachable.
    PortUnreachable,
    /// Fragmentation is required, and the packet forbids it.
    FragRequired,
    /// The source route failed.
    SrcRouteFailed,
    /// The destination network is unknown.
    DstNetUnknown,
    /// The destination host is unknown.
    DstHostUnknown,
    /// The source host is isolated.
    SrcHostIsolated,
    /// The network is administratively prohibited.
    NetProhibited,
    /// The host is administratively prohibited.
    HostProhibited,
    /// The network is unreachable for this type of service.
    NetUnreachToS,
    /// The host is unreachable for this type of service.
    HostUnreachToS,
    /// Communication is administratively prohibited.
    CommProhibited,
    /// The host's precedence was violated.
    HostPrecedViol,
    /// A precedence cutoff is in effect.
    PrecedCutoff,
    /// Any other code, by its number.
    Unknown(u8),
}

impl From<u8> for DstUnreachable {
    fn from(number: u8) -> DstUnreachable {
        unreachable_numbered(number)
    }
}

// The reason of a code.
fn unreachable_numbered(number: u8) -> DstUnreachable {
    match number {
        0 => DstUnreachable::NetUnreachable,
        1 => DstUnreachable::HostUnreachable,
        2 => DstUnreachable::ProtoUnreachable,
        3 => DstUnreachable::PortUnreachable,
        4 => DstUnreachable::FragRequired,
        5 => DstUnreachable::SrcRouteFailed,
        6 => DstUnreachable::DstNetUnknown,
        7 => DstUnreachable::DstHostUnknown,
        8 => DstUnreachable::SrcHostIsolated,
        9 => DstUnreachable::NetProhibited,
        10 => DstUnreachable::HostProhibited,
        11 => DstUnreachable::NetUnreachToS,
        12 => DstUnreachable::HostUnreachToS,
        13 => DstUnreachable::CommProhibited,
        14 => DstUnreachable::HostPrecedViol,
        15 => DstUnreachable::PrecedCutoff,
        other => DstUnreachable::Unknown(other),
    }
}

impl From<DstUnreachable> for u8 {
    fn from(unreachable: DstUnreachable) -> u8 {
        match unreachable {
            DstUnreachable::NetUnreachable => 0,
            DstUnreachable::HostUnreachable => 1,
            DstUnreachable::ProtoUnreachable => 2,
            DstUnreachable::PortUnreachable => 3,
            DstUnreachable::FragRequired => 4,
            DstUnreachable::SrcRouteFailed => 5,
            DstUnreachable::DstNetUnknown => 6,
            DstUnreachable::DstHostUnknown => 7,
            DstUnreachable::SrcHostIsolated => 8,
            DstUnreachable::NetProhibited => 9,
            DstUnreachable::HostProhibited => 10,
            DstUnreachable::NetUnreachToS => 11,
            DstUnreachable::HostUnreachToS => 12,
            DstUnreachable::CommProhibited => 13,
            DstUnreachable::HostPrecedViol => 14,
            DstUnreachable::PrecedCutoff => 15,
            DstUnreachable::Unknown(other) => other,
        }
    }
}

/// The reason in words, or its number.
impl fmt::Display for DstUnreachable {
    fn fmt(&self, f: &mut fmt::Formatter<'_>) -> fmt::Result {
        let words = match self {
            DstUnreachable::NetUnreachable => "destination network unreachable",
            DstUnreachable::HostUnreachable => "destination host unreachable",
            DstUnreachable::ProtoUnreachable => "destination protocol unreachable",
            DstUnreachable::PortUnreachable => "destination port unreachable",
            DstUnreachable::FragRequired => "fragmentation required, and DF flag set",
            DstUnreachable::SrcRouteFailed => "source route failed",
            DstUnreachable::DstNetUnknown => "destination network unknown",
            DstUnreachable::DstHostUnknown => "destination host unknown",
            DstUnreachable::SrcHostIsolated => "source host isolated",
            DstUnreachable::NetProhibited => "network administratively prohibited",
            DstUnreachable::HostProhibited => "host administratively prohibited",
            DstUnreachable::NetUnreachToS => "network unreachable for ToS",
            DstUnreachable::HostUnreachToS => "host unreachable for ToS",
            DstUnreachable::CommProhibited => "communication administratively prohibited",
            DstUnreachable::HostPrecedViol => "host precedence violation",
            DstUnreachable::PrecedCutoff => "precedence cutoff in effect",
            DstUnreachable::Unknown(number) => return write!(f, "{number}"),
        };
        f.write_str(words)
    }
}

/// What a redirect is about: its code, one byte (RFC 792).
#[derive(Debug, PartialEq, Eq, PartialOrd, Ord, Clone, Copy)]
pub enum Redirect {
    /// The network.
    Net,
    /// The host.
    Host,
    /// The network and the type of service.
    NetToS,
    /// The host and the type of service.
    HostToS,
    /// Any other code, by its number.
    Unknown(u8),
}

impl From<u8> for Redirect {
    fn from(number: u8) -> Redirect {
        match number {
            0 => Redirect::Net,
            1 => Redirect::Host,
            2 => Redirect::NetToS,
            3 => Redirect::HostToS,
            other => Redirect::Unknown(other),
        }
    }
}

impl From<Redirect> for u8 {
    fn from(redirect: Redirect) -> u8 {
        match redirect {
            Redirect::Net => 0,
            Redirect::Host => 1,
            Redirect::NetToS => 2,
            Redirect::HostToS => 3,
            Redirect::Unknown(other) => other,
        }
    }
}

/// The reason in words, or its number.
impl fmt::Display for Redirect {
    fn fmt(&self, f: &mut fmt::Formatter<'_>) -> fmt::Result {
        let words = match self {
            Redirect::Net => "redirect for the network",
            Redirect::Host => "redirect for the host",
            Redirect::NetToS => "redirect for the ToS and network",
            Redirect::HostToS => "redirect for the ToS and host",
            Redirect::Unknown(number) => return write!(f, "{number}"),
        };
        f.write_str(words)
    }
}

/// Which time was exceeded: the code of such a message, one byte (RFC 792).
#[derive(Debug, PartialEq, Eq, PartialOrd, Ord, Clone, Copy)]
pub enum TimeExceeded {
    /// The time to live, in transit.
    TtlExpired,
    /// The time for reassembly.
    FragExpired,
    /// Any other code, by its number.
    Unknown(u8),
}

impl From<u8> for TimeExceeded {
    fn from(number: u8) -> TimeExceeded {
        match number {
            0 => TimeExceeded::TtlExpired,
            1 => TimeExceeded::FragExpired,
            other => TimeExceeded::Unknown(other),
        }
    }
}

impl From<TimeExceeded> for u8 {
    fn from(time_exceeded: TimeExceeded) -> u8 {
        match time_exceeded {
            TimeExceeded::TtlExpired => 0,
            TimeExceeded::FragExpired => 1,
            TimeExceeded::Unknown(other) => other,
        }
    }
}

/// The reason in words, or its number.
impl fmt::Display for TimeExceeded {
    fn fmt(&self, f: &mut fmt::Formatter<'_>) -> fmt::Result {
        let words = match self {
            TimeExceeded::TtlExpired => "time-to-live exceeded in transit",
            TimeExceeded::FragExpired => "fragment reassembly time exceeded",
            TimeExceeded::Unknown(number) => return write!(f, "{number}"),
        };
        f.write_str(words)
    }
}

/// What is wrong with a parameter: the code of such a message, one byte (RFC 792, RFC 1122 section 3.2.2.5).
#[derive(Debug, PartialEq, Eq, PartialOrd, Ord, Clone, Copy)]
pub enum ParamProblem {
    /// The pointer tells where the error is.
    AtPointer,
    /// A required option is missing.
    MissingOption,
    /// A length is bad.
    BadLength,
    /// Any other code, by its number.
    Unknown(u8),
}

impl From<u8> for ParamProblem {
    fn from(number: u8) -> ParamProblem {
        match number {
            0 => ParamProblem::AtPointer,
            1 => ParamProblem::MissingOption,
            2 => ParamProblem::BadLength,
            other => ParamProblem::Unknown(other),
        }
    }
}

impl From<ParamProblem> for u8 {
    fn from(param_problem: ParamProblem) -> u8 {
        match param_problem {
            ParamProblem::AtPointer => 0,
            ParamProblem::MissingOption => 1,
            ParamProblem::BadLength => 2,
            ParamProblem::Unknown(other) => other,
        }
    }
}

/// The reason in words, or its number.
impl fmt::Display for ParamProblem {
    fn fmt(&self, f: &mut fmt::Formatter<'_>) -> fmt::Result {
        let words = match self {
            ParamProblem::AtPointer => "pointer indicates the error",
            ParamProblem::MissingOption => "missing a required option",
            ParamProblem::BadLength => "bad length",
            ParamProblem::Unknown(number) => return write!(f, "{number}"),
        };
        f.write_str(words)
    }
}
