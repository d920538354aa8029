// Made from crates/header_wire/src/ipv6_fragment/display.rt by rust/erase.
//! What fragment headers and their refusals print.

use super::{Header, Refusal};
use core::fmt;

/// The fields by their names.
impl fmt::Display for Header {
    fn fmt(&self, f: &mut fmt::Formatter<'_>) -> fmt::Result {
        let next_header = self.next_header;
        let ident = self.ident;
        let more_frags = self.more_frags;
        let offset = self.frag_offset;
        write!(
            f,
            "next_header={next_header} ident={ident} more_frags={more_frags} offset={offset}"
        )
    }
}

/// The reason, as a phrase.
impl fmt::Display for Refusal {
    fn fmt(&self, f: &mut fmt::Formatter<'_>) -> fmt::Result {
        match self {
            Refusal::Short => write!(f, "fewer than 8 bytes"),
        }
    }
}
