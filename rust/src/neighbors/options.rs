// Made from crates/neighbor_wire/src/options.rt by rust/erase.
//! The options of a message in turn (RFC 4861 section 4.6).

use crate::neighbors::option::{NeighborOption, UNIT, UNITS};
use crate::neighbors::refusal::Refusal;
use crate::wirebase::Octets;

/// The options of a message of neighbor discovery in turn, also those of unknown types.
///
/// For a whole option that [`NeighborOption::parse`] refuses, the reason is given, and then the option behind it. Where
/// the octets end before an option does, or an option has a length of 0, the reason is given once, and then the end:
/// hosts discard such a message (RFC 4861 section 6.1).
#[derive(Debug, Clone)]
pub struct NeighborOptions<'a> {
    // The octets after the options that were given already.
    rest: &'a [u8],
}

impl<'a> NeighborOptions<'a> {
    /// The options in `octets`, which are those after the fields of a message.
    pub fn new(octets: &'a [u8]) -> NeighborOptions<'a> {
        NeighborOptions { rest: octets }
    }
}

impl<'a> Iterator for NeighborOptions<'a> {
    type Item = Result<NeighborOption<'a>, Refusal>;

    fn next(&mut self) -> Option<Result<NeighborOption<'a>, Refusal>> {
        if self.rest.is_empty() {
            return None;
        }
        match split_block(self.rest) {
            Ok((block, behind)) => {
                self.rest = behind;
                Some(NeighborOption::parse(block))
            }
            Err(refusal) => {
                self.rest = &[];
                Some(Err(refusal))
            }
        }
    }
}

// The whole units of an option at the front and the octets after them, or why the octets don't begin with an option.
fn split_block(octets: &[u8]) -> Result<(&[u8], &[u8]), Refusal> {
    if octets.len() < UNIT {
        return Err(Refusal::Short);
    }
    let units = octets.u8_at(UNITS);
    if units == 0 {
        return Err(Refusal::Zero);
    }
    let len = UNIT * units as usize;
    if octets.len() < len {
        return Err(Refusal::Counted(len));
    }
    Ok(octets.split_at(len))
}
