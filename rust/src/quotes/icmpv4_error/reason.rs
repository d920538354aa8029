// Made from crates/quote_wire/src/icmpv4_error/reason.rt by rust/erase.
//! The meanings of the codes of errors (RFC 792, RFC 1122 section 3.2.2, RFC 1812 section 5.2.7.1).

use super::{Kind, Repr};

impl Repr<'_> {
    /// The meaning of the code, in the words of `icmpv4::DstUnreachable` and its like; None for a code without one.
    pub fn reason(&self) -> Option<&'static str> {
        match self.kind {
            Kind::DstUnreachable => unreachable(self.code),
            Kind::SourceQuench => None,
            Kind::Redirect => redirect(self.code),
            Kind::TimeExceeded => time_exceeded(self.code),
            Kind::ParamProblem => param_problem(self.code),
        }
    }
}

// Why a destination is unreachable.
fn unreachable(code: u8) -> Option<&'static str> {
    match code {
        0 => Some("destination network unreachable"),
        1 => Some("destination host unreachable"),
        2 => Some("destination protocol unreachable"),
        3 => Some("destination port unreachable"),
        4 => Some("fragmentation required, and DF flag set"),
        5 => Some("source route failed"),
        6 => Some("destination network unknown"),
        7 => Some("destination host unknown"),
        8 => Some("source host isolated"),
        9 => Some("network administratively prohibited"),
        10 => Some("host administratively prohibited"),
        11 => Some("network unreachable for ToS"),
        12 => Some("host unreachable for ToS"),
        13 => Some("communication administratively prohibited"),
        14 => Some("host precedence violation"),
        15 => Some("precedence cutoff in effect"),
        _ => None,
    }
}

// The datagrams for which another gateway is better.
fn redirect(code: u8) -> Option<&'static str> {
    match code {
        0 => Some("redirect for the network"),
        1 => Some("redirect for the host"),
        2 => Some("redirect for the ToS and network"),
        3 => Some("redirect for the ToS and host"),
        _ => None,
    }
}

// The time that was exceeded.
fn time_exceeded(code: u8) -> Option<&'static str> {
    match code {
        0 => Some("time-to-live exceeded in transit"),
        1 => Some("fragment reassembly time exceeded"),
        _ => None,
    }
}

// What is wrong with a parameter.
fn param_problem(code: u8) -> Option<&'static str> {
    match code {
        0 => Some("pointer indicates the error"),
        1 => Some("missing a required option"),
        2 => Some("bad length"),
        _ => None,
    }
}
