// Made from crates/dns_wire/src/dns/name.rt by rust/erase.
//! The walk over a name that may go on elsewhere in its message (RFC 1035 section 4.1.4).

use crate::dns_wire::dns::part::{NamePart, follow, read_front};
use crate::wirebase::{Error, Result};

/// The labels of a name. The first pointer leads to any place of the message, and each later one to below the place
/// that the one before it led to, so the walk ends.
#[derive(Debug, Clone)]
pub struct NameIter<'a> {
    // What is left of the part that is read.
    left: &'a [u8],
    // The open bytes of the message: a pointer leads to one of them.
    reach: &'a [u8],
    steps: usize,
}

impl<'a> Iterator for NameIter<'a> {
    type Item = Result<&'a [u8]>;

    #[inline]
    fn next(&mut self) -> Option<Result<&'a [u8]>> {
        loop {
            match read_front(self.left) {
                NamePart::Label(label, rest) => {
                    self.left = rest;
                    self.steps += 1;
                    return Some(Ok(label));
                }
                NamePart::Pointer(target) => {
                    let Some((left, reach)) = follow(self.reach, target) else {
                        break;
                    };
                    self.left = left;
                    self.reach = reach;
                    self.steps += 1;
                }
                NamePart::End => return None,
                NamePart::Torn => break,
            }
        }
        // From here on the end of a name is read, so that the error is given once.
        self.left = &[0];
        self.reach = &[];
        Some(Err(Error))
    }
}

impl<'a> NameIter<'a> {
    /// How many labels were given and pointers followed.
    pub fn steps(&self) -> usize {
        let NameIter { steps, .. } = self;
        *steps
    }
}

/// The walk over the name that begins in a slice and may go on in a message.
#[inline]
pub(crate) fn walk<'a>(message: &'a [u8], slice: &'a [u8]) -> NameIter<'a> {
    NameIter {
        left: slice,
        reach: message,
        steps: 0,
    }
}
