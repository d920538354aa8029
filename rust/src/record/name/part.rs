// Made from crates/record_wire/src/name/part.rt by rust/erase.
//! The labels in a part of a name (RFC 1035 section 4.1.4).

use crate::dns_wire::octets::{NamePart, read_front};
use crate::record::name::MAX_NAME_LEN;

/// The number of bytes of the whole labels at the start of a text, which are copied at once, and what follows them:
/// also a label, where the labels with it would have more octets than a name has.
#[inline]
pub(super) fn read_labels(text: &[u8]) -> (usize, NamePart<'_>) {
    let mut left = text;
    loop {
        match read_front(left) {
            NamePart::Label(_, rest) if text.len() - rest.len() < MAX_NAME_LEN => left = rest,
            front => return (text.len() - left.len(), front),
        }
    }
}
