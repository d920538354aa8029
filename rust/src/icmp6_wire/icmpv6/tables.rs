// Made from crates/icmp6_wire/src/icmpv6/tables.rt by rust/erase.
//! The numbers of messages and of their codes (RFC 4443 section 2.1).

use core::fmt;

/// The type of a message, one byte. Errors have numbers below 128 (RFC 4443 section 2.1).
#[derive(Debug, PartialEq, Eq, PartialOrd, Ord, Clone, Copy)]
pub enum Message {
    /// An error: the destination of a packet is unreachable (RFC 4443 section 3.1).
    DstUnreachable,
    /// An error: a packet is longer than the link can carry (RFC 4443 section 3.2).
    PktTooBig,
    /// An error: a time of a packet was exceeded (RFC 4443 section 3.3).
    TimeExceeded,
    /// An error: a field of a packet makes no sense (RFC 4443 section 3.4).
    ParamProblem,
    /// Echo request (RFC 4443 section 4.1).
    EchoRequest,
    /// Echo reply (RFC 4443 section 4.2).
    EchoReply,
    /// Multicast listener query (RFC 3810 section 5.1).
    MldQuery,
    /// Router solicitation (RFC 4861 section 4.1).
    RouterSolicit,
    /// Router advertisement (RFC 4861 section 4.2).
    RouterAdvert,
    /// Neighbor solicitation (RFC 4861 section 4.3).
    NeighborSolicit,
    /// Neighbor advertisement (RFC 4861 section 4.4).
    NeighborAdvert,
    /// Redirect (RFC 4861 section 4.5).
    Redirect,
    /// Multicast listener report, version 2 (RFC 3810 section 5.2).
    MldReport,
    /// Control message of RPL (RFC 6550 section 6).
    RplControl,
    /// Any other type, by its number.
    Unknown(u8),
}

impl Message {
    /// Whether messages of this type are errors: the highest bit of their number is clear (RFC 4443 section 2.1).
    pub fn is_error(&self) -> bool {
        u8::from(*self) < 0x80
    }

    /// Whether messages of this type are of neighbor discovery (RFC 4861 section 4).
    pub const fn is_ndisc(&self) -> bool {
        matches!(
            *self,
            Message::RouterSolicit
                | Message::RouterAdvert
                | Message::NeighborSolicit
                | Message::NeighborAdvert
                | Message::Redirect
        )
    }

    /// Whether messages of this type are of multicast listener discovery (RFC 3810 section 5).
    pub const fn is_mld(&self) -> bool {
        matches!(*self, Message::MldQuery | Message::MldReport)
    }
}

impl From<u8> for Message {
    fn from(number: u8) -> Message {
        message_numbered(number)
    }
}

// The type of a number.
fn message_numbered(number: u8) -> Message {
    match number {
        1 => Message::DstUnreachable,
        2 => Message::PktTooBig,
        3 => Message::TimeExceeded,
        4 => Message::ParamProblem,
        0x80 => Message::EchoRequest,
        0x81 => Message::EchoReply,
        0x82 => Message::MldQuery,
        0x85 => Message::RouterSolicit,
        0x86 => Message::RouterAdvert,
        0x87 => Message::NeighborSolicit,
        0x88 => Message::NeighborAdvert,
        0x89 => Message::Redirect,
        0x8f => Message::MldReport,
        0x9b => Message::RplControl,
        other => Message::Unknown(other),
    }
}

impl From<Message> for u8 {
    fn from(message: Message) -> u8 {
        match message {
            Message::DstUnreachable => 1,
            Message::PktTooBig => 2,
            Message::TimeExceeded => 3,
            Message::ParamProblem => 4,
            Message::EchoRequest => 0x80,
            Message::EchoReply => 0x81,
            Message::MldQuery => 0x82,
            Message::RouterSolicit => 0x85,
            Message::RouterAdvert => 0x86,
            Message::NeighborSolicit => 0x87,
            Message::NeighborAdvert => 0x88,
            Message::Redirect => 0x89,
            Message::MldReport => 0x8f,
            Message::RplControl => 0x9b,
            Message::Unknown(other) => other,
        }
    }
}

impl fmt::Display for Message {
    fn fmt(&self, f: &mut fmt::Formatter<'_>) -> fmt::Result {
        let words = match self {
            Message::DstUnreachable => "destination unreachable",
            Message::PktTooBig => "packet too big",
            Message::TimeExceeded => "time exceeded",
            Message::ParamProblem => "parameter problem",
            Message::EchoRequest => "echo request",
            Message::EchoReply => "echo reply",
            Message::MldQuery => "multicast listener query",
            Message::RouterSolicit => "router solicitation",
            Message::RouterAdvert => "router advertisement",
            Message::NeighborSolicit => "neighbor solicitation",
            Message::NeighborAdvert => "neighbor advert",
            Message::Redirect => "redirect",
            Message::MldReport => "multicast listener report",
            Message::RplControl => "RPL control message",
            Message::Unknown(number) => return fmt_number(f, *number),
        };
        f.write_str(words)
    }
}

/// Why a destination is unreachable: the code of such a message, one byte (RFC 4443 section 3.1).
#[derive(Debug, PartialEq, Eq, PartialOrd, Ord, Clone, Copy)]
pub enum DstUnreachable {
    /// No route leads to the destination.
    NoRoute,
    /// Communication with the destination is administratively prohibited.
    AdminProhibit,
    /// The destination lies beyond the scope of the source address.
    BeyondScope,
    /// The address is unreachable.
    AddrUnreachable,
    /// The port is unreachable.
    PortUnreachable,
    /// The source address failed an ingress or egress policy.
    FailedPolicy,
    /// The route to the destination rejects.
    RejectRoute,
    /// Any other code, by its number.
    Unknown(u8),
}

impl From<u8> for DstUnreachable {
    fn from(number: u8) -> DstUnreachable {
        unreachable_numbered(number)
    }
}

// The code of a number.
fn unreachable_numbered(number: u8) -> DstUnreachable {
    match number {
        0 => DstUnreachable::NoRoute,
        1 => DstUnreachable::AdminProhibit,
        2 => DstUnreachable::BeyondScope,
        3 => DstUnreachable::AddrUnreachable,
        4 => DstUnreachable::PortUnreachable,
        5 => DstUnreachable::FailedPolicy,
        6 => DstUnreachable::RejectRoute,
        other => DstUnreachable::Unknown(other),
    }
}

impl From<DstUnreachable> for u8 {
    fn from(unreachable: DstUnreachable) -> u8 {
        match unreachable {
            DstUnreachable::NoRoute => 0,
            DstUnreachable::AdminProhibit => 1,
            DstUnreachable::BeyondScope => 2,
            DstUnreachable::AddrUnreachable => 3,
            DstUnreachable::PortUnreachable => 4,
            DstUnreachable::FailedPolicy => 5,
            DstUnreachable::RejectRoute => 6,
            DstUnreachable::Unknown(other) => other,
        }
    }
}

impl fmt::Display for DstUnreachable {
    fn fmt(&self, f: &mut fmt::Formatter<'_>) -> fmt::Result {
        let words = match self {
            DstUnreachable::NoRoute => "no route to destination",
            DstUnreachable::AdminProhibit => {
                "communication with destination administratively prohibited"
            }
            DstUnreachable::BeyondScope => "beyond scope of source address",
            DstUnreachable::AddrUnreachable => "address unreachable",
            DstUnreachable::PortUnreachable => "port unreachable",
            DstUnreachable::FailedPolicy => "source address failed ingress/egress policy",
            DstUnreachable::RejectRoute => "reject route to destination",
            DstUnreachable::Unknown(number) => return fmt_number(f, *number),
        };
        f.write_str(words)
    }
}

/// What is wrong with a packet: the code of a parameter problem, one byte (RFC 4443 section 3.4).
#[derive(Debug, PartialEq, Eq, PartialOrd, Ord, Clone, Copy)]
pub enum ParamProblem {
    /// A field of a header is erroneous.
    ErroneousHdrField,
    /// The type of the next header is unrecognized.
    UnrecognizedNxtHdr,
    /// An IPv6 option is unrecognized.
    UnrecognizedOption,
    /// Any other code, by its number.
    Unknown(u8),
}

impl From<u8> for ParamProblem {
    fn from(number: u8) -> ParamProblem {
        param_problem_numbered(number)
    }
}

// The code of a number.
fn param_problem_numbered(number: u8) -> ParamProblem {
    match number {
        0 => ParamProblem::ErroneousHdrField,
        1 => ParamProblem::UnrecognizedNxtHdr,
        2 => ParamProblem::UnrecognizedOption,
        other => ParamProblem::Unknown(other),
    }
}

impl From<ParamProblem> for u8 {
    fn from(param_problem: ParamProblem) -> u8 {
        match param_problem {
            ParamProblem::ErroneousHdrField => 0,
            ParamProblem::UnrecognizedNxtHdr => 1,
            ParamProblem::UnrecognizedOption => 2,
            ParamProblem::Unknown(other) => other,
        }
    }
}

impl fmt::Display for ParamProblem {
    fn fmt(&self, f: &mut fmt::Formatter<'_>) -> fmt::Result {
        let words = match self {
            ParamProblem::ErroneousHdrField => "erroneous header field.",
            ParamProblem::UnrecognizedNxtHdr => "unrecognized next header type.",
            ParamProblem::UnrecognizedOption => "unrecognized IPv6 option.",
            ParamProblem::Unknown(number) => return fmt_number(f, *number),
        };
        f.write_str(words)
    }
}

/// Which time was exceeded: the code of such a message, one byte (RFC 4443 section 3.3).
#[derive(Debug, PartialEq, Eq, PartialOrd, Ord, Clone, Copy)]
pub enum TimeExceeded {
    /// The hop limit was exceeded in transit.
    HopLimitExceeded,
    /// The time to reassemble fragments was exceeded.
    FragReassemExceeded,
    /// Any other code, by its number.
    Unknown(u8),
}

impl From<u8> for TimeExceeded {
    fn from(number: u8) -> TimeExceeded {
        time_exceeded_numbered(number)
    }
}

// The code of a number.
fn time_exceeded_numbered(number: u8) -> TimeExceeded {
    match number {
        0 => TimeExceeded::HopLimitExceeded,
        1 => TimeExceeded::FragReassemExceeded,
        other => TimeExceeded::Unknown(other),
    }
}

impl From<TimeExceeded> for u8 {
    fn from(time_exceeded: TimeExceeded) -> u8 {
        match time_exceeded {
            TimeExceeded::HopLimitExceeded => 0,
            TimeExceeded::FragReassemExceeded => 1,
            TimeExceeded::Unknown(other) => other,
        }
    }
}

impl fmt::Display for TimeExceeded {
    fn fmt(&self, f: &mut fmt::Formatter<'_>) -> fmt::Result {
        let words = match self {
            TimeExceeded::HopLimitExceeded => "hop limit exceeded in transit",
            TimeExceeded::FragReassemExceeded => "fragment reassembly time exceeded",
            TimeExceeded::Unknown(number) => return fmt_number(f, *number),
        };
        f.write_str(words)
    }
}

// Prints a number that has no words.
fn fmt_number(f: &mut fmt::Formatter<'_>, number: u8) -> fmt::Result {
    write!(f, "{number}")
}
