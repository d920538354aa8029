// Made from crates/extension_wire/src/split.rt by rust/erase.
//! Where the original datagram of an error ends, and an extension structure begins (RFC 4884 sections 3 to 5).

use crate::extensions::family::Family;
use crate::extensions::refusal::SplitRefusal;
use crate::extensions::structure;
use crate::wirebase::checksum;

/// The fewest bytes of the original datagram, with the padding behind it, in an error that has extensions (RFC 4884
/// section 3).
pub const LEAST_QUOTE: usize = 128;

// The bytes of a structure's header and of the smallest object.
const LEAST_STRUCTURE: usize = 8;

/// What an error has behind its header of 8 bytes.
#[derive(Debug, PartialEq, Eq, Clone, Copy)]
pub struct Parts<'a> {
    /// The original datagram, as much of it as is quoted, and the zeros that pad it.
    pub quoted: &'a [u8],
    /// The extension structure, which [`structure::parse`] reads, where there is one.
    pub extensions: Option<&'a [u8]>,
}

impl<'a> Parts<'a> {
    /// The parts of these octets, which are those behind the 8 bytes of an error's header. `length` is the error's own:
    /// byte 5 of an error of ICMPv4, of type 3, 11 or 12, and byte 4 of one of ICMPv6, of type 1 or 3; other types have
    /// none. It counts words of 4 or 8 bytes ([`Family::unit`]); where it is 0, no extension is claimed, and all is
    /// quoted ([`Parts::split_by_content`] looks for one nevertheless). Refused where these words are fewer than 128
    /// bytes, or more than there are. Where nothing follows the original datagram there is no structure.
    pub fn split(octets: &'a [u8], length: u8, family: Family) -> Result<Parts<'a>, SplitRefusal> {
        if length == 0 {
            return Ok(Parts {
                quoted: octets,
                extensions: None,
            });
        }
        let len = family.unit() * length as usize;
        if len < LEAST_QUOTE {
            return Err(SplitRefusal::Short);
        }
        if octets.len() < len {
            return Err(SplitRefusal::Cut);
        }
        Ok(Parts {
            quoted: &octets[..len],
            extensions: some_of(&octets[len..]),
        })
    }

    /// The parts of the octets of an error whose length is 0, as senders from before RFC 4884 write them (section 5.5):
    /// the original datagram is 128 bytes, and an extension structure follows. It is taken for one where it has the 8
    /// bytes of a header and an object at least, version 2, and a checksum that is right, so none that is left out;
    /// else all octets are quoted. A quoted datagram may look so by chance: read extensions in this way only where
    /// senders are known to be so old.
    pub fn split_by_content(octets: &'a [u8]) -> Parts<'a> {
        if !has_structure(octets) {
            return Parts {
                quoted: octets,
                extensions: None,
            };
        }
        let (quoted, behind) = octets.split_at(LEAST_QUOTE);
        Parts {
            quoted,
            extensions: Some(behind),
        }
    }
}

// The octets, where there are any.
fn some_of(octets: &[u8]) -> Option<&[u8]> {
    if octets.is_empty() {
        return None;
    }
    Some(octets)
}

// Whether a structure is seen behind 128 bytes.
fn has_structure(octets: &[u8]) -> bool {
    octets.len() >= LEAST_QUOTE + LEAST_STRUCTURE && is_structure(&octets[LEAST_QUOTE..])
}

// Whether these octets have the version and the checksum of a structure.
fn is_structure(octets: &[u8]) -> bool {
    structure::version(octets) == structure::VERSION && checksum::is_good(octets, 0)
}
