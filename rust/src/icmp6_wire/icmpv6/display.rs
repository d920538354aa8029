// Made from crates/icmp6_wire/src/icmpv6/display.rt by rust/erase.
//! Messages printed, each in one line.

use super::repr::Repr;
use core::fmt;

/// Prints an error with its reason and the word after its checksum, an echo with its numbers and the length of its
/// data, as `ICMPv6 echo request id=18 seq=1 len=56`, and a message of another protocol as that protocol's value.
impl fmt::Display for Repr<'_> {
    fn fmt(&self, f: &mut fmt::Formatter<'_>) -> fmt::Result {
        match self {
            Repr::DstUnreachable { reason, .. } => {
                write!(f, "ICMPv6 destination unreachable ({reason})")
            }
            Repr::PktTooBig { mtu, .. } => write!(f, "ICMPv6 packet too big mtu={mtu}"),
            Repr::TimeExceeded { reason, .. } => write!(f, "ICMPv6 time exceeded ({reason})"),
            Repr::ParamProblem {
                reason, pointer, ..
            } => {
                write!(f, "ICMPv6 parameter problem ({reason}) pointer={pointer}")
            }
            Repr::EchoRequest {
                ident,
                seq_no,
                data,
            } => {
                let len = data.len();
                write!(f, "ICMPv6 echo request id={ident} seq={seq_no} len={len}")
            }
            Repr::EchoReply {
                ident,
                seq_no,
                data,
            } => {
                let len = data.len();
                write!(f, "ICMPv6 echo reply id={ident} seq={seq_no} len={len}")
            }
            Repr::Ndisc(message) => write!(f, "{message}"),
            Repr::Mld(message) => write!(f, "{message}"),
        }
    }
}
