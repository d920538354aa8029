// Made from crates/reassembly/src/answer.rt by rust/erase.
//! What becomes of a fragment.

use crate::partial::Partial;
use control_wire::IpProtocol;
use control_wire::frames::Addresses;
#[allow(unused_imports)]
use rattle_std::prelude::*;

mod display;

/// What becomes of a fragment.
#[derive(Debug)]
pub enum Answer {
    /// It is kept, or it is there already, and its datagram still lacks some bytes. Where it is the first of its
    /// datagram and there was no room, the datagram that began first is dropped, and this is that one.
    Incomplete(Option<Partial>),
    /// With it its datagram is whole, and is no longer kept.
    Whole(Whole),
    /// It is not taken.
    Refused(Refusal),
}

/// A datagram that was put together.
#[derive(Debug)]
pub struct Whole {
    /// The source and the destination, as its fragments have them.
    pub addresses: Addresses,
    /// The protocol of the payload, as the fragment at offset 0 names it. In IPv6 this may be a header that extends
    /// IPv6, with which the payload then begins.
    pub protocol: IpProtocol,
    /// The hop-by-hop options before the fragment at offset 0, as it has them: they stay with the datagram, and those
    /// before the other fragments do not (RFC 8200 section 4.5). None in IPv4.
    pub hop_by_hop: Option<Vec<u8>>,
    /// The payload: the bytes of the fragments in the order of their offsets, at most 65,535.
    pub payload: Vec<u8>,
    /// The numbers of the packets that the fragments came in, in the order of their offsets.
    pub numbers: Vec<u64>,
}

/// Why a fragment is not taken: the check that fails first.
#[derive(Debug, PartialEq, Eq, Clone, Copy)]
pub enum Refusal {
    /// It has no payload. The fragments that are kept stay.
    Empty,
    /// It is a whole datagram: at offset 0 with no more fragments after it. Such a one is no part of another (RFC 6946
    /// section 4). The fragments that are kept stay.
    Unfragmented,
    /// More fragments follow it, and its length is no multiple of 8 bytes (RFC 791 section 3.2, RFC 8200 section 4.5).
    /// The fragments that are kept stay.
    Length,
    /// It goes on past the 65,535 bytes that a datagram may have. The fragments that are kept stay.
    TooLong,
    /// Its hop-by-hop options have more than `MOST_OPTIONS_LEN` bytes, which no header has. The fragments that are kept
    /// stay.
    Options,
    /// It is of a datagram that was discarded before for one of the reasons below.
    Discarded,
    /// It has bytes in common with another fragment of its datagram without being the same fragment again. The datagram
    /// is discarded (RFC 5722 section 3, RFC 8200 section 4.5).
    Overlap,
    /// It goes on past the end of its datagram as the last fragment tells it, or it is a last fragment that ends before
    /// another does. The datagram is discarded.
    End,
    /// Its datagram has as many fragments as are kept of one, `MOST_PIECES`. The datagram is discarded.
    TooMany,
}

/// What keeps a fragment from being taken or refused.
#[derive(Debug, PartialEq, Eq, Clone, Copy)]
pub enum Fault {
    /// There was no memory.
    Memory,
}
