// Made from crates/frame_wire/src/udp/display.rt by rust/erase.
//! What UDP datagrams and their refusals print.

use super::{Refusal, UdpRepr};
use core::fmt;

/// The ports.
impl fmt::Display for UdpRepr {
    fn fmt(&self, f: &mut fmt::Formatter<'_>) -> fmt::Result {
        let src_port = self.src_port;
        let dst_port = self.dst_port;
        write!(f, "UDP src={src_port} dst={dst_port}")
    }
}

/// The reason, as a phrase.
impl fmt::Display for Refusal {
    fn fmt(&self, f: &mut fmt::Formatter<'_>) -> fmt::Result {
        match self {
            Refusal::Short => write!(f, "fewer than 8 bytes"),
            Refusal::Length(len) => write!(f, "a length of {len} is below 8"),
            Refusal::Cut(len) => write!(f, "fewer than its {len} bytes"),
            Refusal::Port => write!(f, "the destination port is 0"),
            Refusal::NoChecksum => write!(f, "no checksum over IPv6"),
            Refusal::Checksum => write!(f, "the checksum does not hold"),
        }
    }
}
