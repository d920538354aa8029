// Made from crates/frame_wire/src/tcp/display.rt by rust/erase.
//! What segments of TCP and their refusals print.

use super::{Refusal, TcpSegment};
use core::fmt;

/// The ports, and the number of bytes of data.
impl fmt::Display for TcpSegment<'_> {
    fn fmt(&self, f: &mut fmt::Formatter<'_>) -> fmt::Result {
        let src_port = self.src_port;
        let dst_port = self.dst_port;
        let len = self.payload.len();
        write!(f, "TCP src={src_port} dst={dst_port} len={len}")
    }
}

/// The reason, as a phrase.
impl fmt::Display for Refusal {
    fn fmt(&self, f: &mut fmt::Formatter<'_>) -> fmt::Result {
        match self {
            Refusal::Short => write!(f, "fewer than the 20 bytes of a TCP header"),
            Refusal::HeaderLen(len) => write!(f, "a TCP header length of {len} is below 20"),
            Refusal::Cut(len) => write!(f, "fewer than the {len} bytes of the TCP header"),
        }
    }
}
