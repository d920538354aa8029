// Made from crates/quote_wire/src/icmpv6_error/reason.rt by rust/erase.
//! The meanings of the codes of errors (RFC 4443 sections 3.1, 3.3 and 3.4).

use super::{Kind, Repr};

impl Repr<'_> {
    /// The meaning of the code, in the words of `icmpv6::DstUnreachable` and its like; None for a code without one.
    pub fn reason(&self) -> Option<&'static str> {
        match self.kind {
            Kind::DstUnreachable => unreachable(self.code),
            Kind::PktTooBig => None,
            Kind::TimeExceeded => time_exceeded(self.code),
            Kind::ParamProblem => param_problem(self.code),
        }
    }
}

// Why a destination is unreachable.
fn unreachable(code: u8) -> Option<&'static str> {
    match code {
        0 => Some("no route to destination"),
        1 => Some("communication with destination administratively prohibited"),
        2 => Some("beyond scope of source address"),
        3 => Some("address unreachable"),
        4 => Some("port unreachable"),
        5 => Some("source address failed ingress/egress policy"),
        6 => Some("reject route to destination"),
        _ => None,
    }
}

// The time that was exceeded.
fn time_exceeded(code: u8) -> Option<&'static str> {
    match code {
        0 => Some("hop limit exceeded in transit"),
        1 => Some("fragment reassembly time exceeded"),
        _ => None,
    }
}

// What is wrong with a header.
fn param_problem(code: u8) -> Option<&'static str> {
    match code {
        0 => Some("erroneous header field."),
        1 => Some("unrecognized next header type."),
        2 => Some("unrecognized IPv6 option."),
        _ => None,
    }
}
