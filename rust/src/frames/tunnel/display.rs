// Made from crates/frame_wire/src/tunnel/display.rt by rust/erase.
//! What tunnels, the packets in them and the refusals of their headers print.

use super::{Inner, Refusal, Tunnel};
use core::fmt;

/// The name of the protocol in the registry of protocol numbers.
impl fmt::Display for Tunnel {
    fn fmt(&self, f: &mut fmt::Formatter<'_>) -> fmt::Result {
        match self {
            Tunnel::Ipv4 => write!(f, "IPv4"),
            Tunnel::Ipv6 => write!(f, "IPv6"),
            Tunnel::Gre => write!(f, "GRE"),
        }
    }
}

/// The tunnel, the network of the packet in it, and its number of bytes.
impl fmt::Display for Inner<'_> {
    fn fmt(&self, f: &mut fmt::Formatter<'_>) -> fmt::Result {
        let tunnel = self.tunnel;
        let network = self.network;
        let len = self.payload.len();
        write!(f, "tunnel={tunnel} network={network} len={len}")
    }
}

/// The reason, as a phrase.
impl fmt::Display for Refusal {
    fn fmt(&self, f: &mut fmt::Formatter<'_>) -> fmt::Result {
        match self {
            Refusal::Short => write!(f, "fewer than the 4 bytes of a GRE header"),
            Refusal::Version(version) => write!(f, "GRE version {version} is not read"),
            Refusal::Routing => write!(f, "a GRE routing field is not read"),
            Refusal::Reserved => write!(f, "a reserved bit of GRE is set"),
            Refusal::Cut(len) => write!(f, "fewer than the {len} bytes of the GRE header"),
        }
    }
}
