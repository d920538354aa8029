// Made from crates/dump_captures/src/path.rt by rust/erase.
//! The way to a datagram: VLANs, tunnels and fragments.

use control_wire::frames::{Addresses, Tunnel};

/// The way to a datagram.
#[derive(Debug, PartialEq, Eq, Clone, Copy)]
pub struct Path<'a> {
    /// The VLAN tags of its frame, four bytes each.
    pub tags: &'a [u8],
    /// The tunnels that it is in.
    pub tunnels: Tunnels,
    /// The numbers of the packets that its fragments came in, in the order of their offsets; none where it came whole.
    pub frames: &'a [u64],
}

/// A tunnel, and the addresses of the datagram whose payload it is.
#[derive(Debug, PartialEq, Eq, Clone, Copy)]
pub struct Passage {
    /// The tunnel.
    pub tunnel: Tunnel,
    /// The source and the destination of the datagram outside.
    pub addresses: Addresses,
}

/// The tunnels that a datagram is in, the outermost first: at most four.
#[derive(Debug, PartialEq, Eq, Clone, Copy)]
pub enum Tunnels {
    /// It is in none.
    Zero,
    /// One.
    One(Passage),
    /// Two.
    Two(Passage, Passage),
    /// Three.
    Three(Passage, Passage, Passage),
    /// Four.
    Four(Passage, Passage, Passage, Passage),
}

impl Tunnels {
    /// The tunnels with one more, the innermost; None where there are four.
    pub fn with(&self, inner: Passage) -> Option<Tunnels> {
        match *self {
            Tunnels::Zero => Some(Tunnels::One(inner)),
            Tunnels::One(a) => Some(Tunnels::Two(a, inner)),
            Tunnels::Two(a, b) => Some(Tunnels::Three(a, b, inner)),
            Tunnels::Three(a, b, c) => Some(Tunnels::Four(a, b, c, inner)),
            Tunnels::Four(..) => None,
        }
    }
}
