// Made from crates/reassembly/src/partial.rt by rust/erase.
//! Datagrams of which some fragments came.

use crate::answer::{Fault, Refusal, Whole};
use crate::fragment::Fragment;
use crate::key::Key;
use crate::options::copied;
use crate::piece::{Piece, Standing};
use control_wire::IpProtocol;
#[allow(unused_imports)]
use rattle_std::prelude::*;

/// The most fragments that are kept of a datagram.
pub const MOST_PIECES: usize = 256;

/// A datagram of which some fragments came, but not yet all.
#[derive(Debug)]
pub struct Partial {
    key: Key,
    discarded: bool,
    // In the order of their offsets; none where it is discarded.
    pieces: Vec<Piece>,
}

// What a fragment does to its datagram.
#[derive(Debug)]
pub(crate) enum Taken {
    // It is kept, or was there.
    Kept,
    // The datagram is whole with it.
    Whole(Whole),
    // It is not taken.
    Refused(Refusal),
}

impl Partial {
    // A datagram of which one fragment came.
    pub(crate) fn begin(number: u64, fragment: &Fragment<'_>) -> Result<Partial, Fault> {
        let piece = Piece::new(number, fragment)?;
        let mut pieces = Vec::new();
        if pieces.push(piece).is_err() {
            return Err(Fault::Memory);
        }
        Ok(Partial {
            key: fragment.key(),
            discarded: false,
            pieces,
        })
    }

    /// What tells it from other datagrams.
    pub fn key(&self) -> &Key {
        &self.key
    }

    /// Whether it was discarded, since one of its fragments contradicted another or was one too many. No fragment of it
    /// is taken any more.
    pub fn is_discarded(&self) -> bool {
        self.discarded
    }

    /// The fragments that are kept of it, in the order of their offsets. They have no byte in common.
    pub fn pieces(&self) -> &[Piece] {
        self.pieces.as_slice()
    }

    // Takes a fragment of it. Where there is no memory, nothing changes.
    pub(crate) fn take(&mut self, number: u64, fragment: &Fragment<'_>) -> Result<Taken, Fault> {
        if self.discarded {
            return Ok(Taken::Refused(Refusal::Discarded));
        }
        match standing(self.pieces.as_slice(), fragment) {
            Standing::Same => Ok(Taken::Kept),
            Standing::Overlapping => Ok(self.discard(Refusal::Overlap)),
            Standing::PastEnd => Ok(self.discard(Refusal::End)),
            Standing::Apart if self.pieces.len() >= MOST_PIECES => {
                Ok(self.discard(Refusal::TooMany))
            }
            Standing::Apart => self.keep(number, fragment),
        }
    }

    // Discards it, for this reason.
    fn discard(&mut self, refusal: Refusal) -> Taken {
        self.pieces.clear();
        self.discarded = true;
        Taken::Refused(refusal)
    }

    // Puts a fragment in its place, and the datagram together where it is whole.
    fn keep(&mut self, number: u64, fragment: &Fragment<'_>) -> Result<Taken, Fault> {
        let piece = Piece::new(number, fragment)?;
        let place = place_of(self.pieces.as_slice(), fragment);
        if self.pieces.insert(place, piece).is_err() {
            return Err(Fault::Memory);
        }
        if !is_whole(self.pieces.as_slice()) {
            return Ok(Taken::Kept);
        }
        match self.whole() {
            Ok(whole) => Ok(Taken::Whole(whole)),
            Err(fault) => {
                self.pieces.remove(place);
                Err(fault)
            }
        }
    }

    // The datagram, put together.
    fn whole(&self) -> Result<Whole, Fault> {
        let pieces = self.pieces.as_slice();
        Ok(Whole {
            addresses: self.key.addresses,
            protocol: first_protocol(pieces),
            hop_by_hop: copied(first_options(pieces))?,
            payload: payload(pieces)?,
            numbers: numbers(pieces)?,
        })
    }
}

// How a fragment stands to those that are kept: apart from all, or as to the first that it is not apart from.
fn standing(pieces: &[Piece], fragment: &Fragment<'_>) -> Standing {
    for piece in pieces {
        let standing = piece.standing(fragment);
        if standing != Standing::Apart {
            return standing;
        }
    }
    Standing::Apart
}

// The place of a fragment among those that are kept: before the first that does not begin before it.
fn place_of(pieces: &[Piece], fragment: &Fragment<'_>) -> usize {
    for (i, piece) in pieces.iter().enumerate() {
        if piece.frag_offset() >= fragment.frag_offset {
            return i;
        }
    }
    pieces.len()
}

// Whether these are all fragments of their datagram.
fn is_whole(pieces: &[Piece]) -> bool {
    let mut more = true;
    let mut end = 0;
    for piece in pieces {
        if !more || piece.frag_offset() as usize != end {
            return false;
        }
        more = piece.more_frags();
        end = piece.end();
    }
    !more
}

// The protocol that the first one names.
fn first_protocol(pieces: &[Piece]) -> IpProtocol {
    match pieces.first() {
        Some(piece) => piece.protocol(),
        None => IpProtocol::Ipv6NoNxt,
    }
}

// The hop-by-hop options that the first one has.
fn first_options(pieces: &[Piece]) -> Option<&[u8]> {
    match pieces.first() {
        Some(piece) => piece.hop_by_hop(),
        None => None,
    }
}

// Their octets, one after another.
fn payload(pieces: &[Piece]) -> Result<Vec<u8>, Fault> {
    let mut payload = Vec::new();
    for piece in pieces {
        if payload.extend_from_slice(piece.octets()).is_err() {
            return Err(Fault::Memory);
        }
    }
    Ok(payload)
}

// The numbers of the packets that they came in.
fn numbers(pieces: &[Piece]) -> Result<Vec<u64>, Fault> {
    let mut numbers = Vec::new();
    for piece in pieces {
        if numbers.push(piece.number()).is_err() {
            return Err(Fault::Memory);
        }
    }
    Ok(numbers)
}
