// Made from crates/reassembly/src/piece.rt by rust/erase.
//! Fragments that are kept.

use crate::answer::Fault;
use crate::fragment::Fragment;
use crate::options::kept_options;
use control_wire::IpProtocol;
#[allow(unused_imports)]
use rattle_std::prelude::*;

/// The most bytes of a datagram's payload.
pub const MOST_LEN: usize = 65_535;

/// The most bytes of a datagram's hop-by-hop options: of the 2,048 bytes of the longest header those after the first
/// two (RFC 8200 section 4.3).
pub const MOST_OPTIONS_LEN: usize = 2_046;

/// A fragment that is kept.
#[derive(Debug)]
pub struct Piece {
    number: u64,
    protocol: IpProtocol,
    offset: u16,
    more: bool,
    // None where it is not at offset 0.
    hop_by_hop: Option<Vec<u8>>,
    octets: Vec<u8>,
}

// How a fragment stands to one that is kept.
#[derive(Debug, PartialEq, Eq, Clone, Copy)]
pub(crate) enum Standing {
    // They have no byte in common, and agree on where the datagram ends.
    Apart,
    // It is the same again.
    Same,
    // They have some bytes in common.
    Overlapping,
    // One has bytes past the end that the other tells.
    PastEnd,
}

impl Piece {
    // A fragment that came in the packet of this number.
    pub(crate) fn new(number: u64, fragment: &Fragment<'_>) -> Result<Piece, Fault> {
        let hop_by_hop = kept_options(fragment)?;
        let mut octets = Vec::new();
        if octets.extend_from_slice(fragment.payload).is_err() {
            return Err(Fault::Memory);
        }
        Ok(Piece {
            number,
            protocol: fragment.protocol,
            offset: fragment.frag_offset,
            more: fragment.more_frags,
            hop_by_hop,
            octets,
        })
    }

    /// The number of the packet that it came in.
    pub fn number(&self) -> u64 {
        self.number
    }

    /// The protocol of the datagram's payload, as this fragment names it.
    pub fn protocol(&self) -> IpProtocol {
        self.protocol
    }

    /// The offset of its bytes in the datagram's payload, in bytes.
    pub fn frag_offset(&self) -> u16 {
        self.offset
    }

    /// Whether more fragments follow.
    pub fn more_frags(&self) -> bool {
        self.more
    }

    /// The options of the hop-by-hop header in front of it, where it is at offset 0: those stay with the datagram (RFC
    /// 8200 section 4.5). None of another.
    pub fn hop_by_hop(&self) -> Option<&[u8]> {
        match &self.hop_by_hop {
            Some(options) => Some(options.as_slice()),
            None => None,
        }
    }

    /// Its bytes of the datagram's payload.
    pub fn octets(&self) -> &[u8] {
        self.octets.as_slice()
    }

    // The place after its last byte in the datagram's payload.
    pub(crate) fn end(&self) -> usize {
        self.offset as usize + self.octets.len()
    }

    // How a fragment stands to it.
    pub(crate) fn standing(&self, fragment: &Fragment<'_>) -> Standing {
        let (start, end) = (self.offset as usize, self.end());
        if self.is_same(fragment) {
            return Standing::Same;
        }
        if start < fragment.end() && (fragment.frag_offset as usize) < end {
            return Standing::Overlapping;
        }
        if (!self.more && end < fragment.end()) || (!fragment.more_frags && fragment.end() < end) {
            return Standing::PastEnd;
        }
        Standing::Apart
    }

    // Whether a fragment is the same again.
    fn is_same(&self, fragment: &Fragment<'_>) -> bool {
        self.protocol == fragment.protocol
            && self.offset == fragment.frag_offset
            && self.more == fragment.more_frags
            && self.octets.as_slice() == fragment.payload
    }
}
