// Made from crates/reassembly/src/answer/display.rt by rust/erase.
//! What refusals and faults print.

use super::{Fault, Refusal};
use std::fmt;

/// The reason, as a phrase.
impl fmt::Display for Refusal {
    fn fmt(&self, f: &mut fmt::Formatter<'_>) -> fmt::Result {
        match self {
            Refusal::Empty => write!(f, "no payload"),
            Refusal::Unfragmented => write!(f, "a whole datagram"),
            Refusal::Length => write!(f, "a length that is no multiple of 8, and more fragments"),
            Refusal::TooLong => write!(f, "bytes past the 65535 of a datagram"),
            Refusal::Options => write!(f, "hop-by-hop options longer than a header"),
            Refusal::Discarded => write!(f, "a datagram that was discarded"),
            Refusal::Overlap => write!(f, "bytes that another fragment has"),
            Refusal::End => write!(f, "bytes past the end of the datagram"),
            Refusal::TooMany => write!(f, "more fragments than are kept"),
        }
    }
}

/// The fault, as a phrase.
impl fmt::Display for Fault {
    fn fmt(&self, f: &mut fmt::Formatter<'_>) -> fmt::Result {
        match self {
            Fault::Memory => write!(f, "no memory"),
        }
    }
}
