// Made from crates/group_wire/src/record.rt by rust/erase.
//! Records of reports (RFC 3376 section 4.2, RFC 3810 section 5.2).

use crate::groups::address::Address;
use crate::groups::sources::Sources;
pub use crate::icmp6_wire::mld::RecordType;
use crate::wirebase::Octets;

mod field {
    use crate::wirebase::Field;

    pub const RECORD_TYPE: Field = 0..1;

    pub const AUXILIARY_WORDS: Field = 1..2;

    pub const SOURCE_COUNT: Field = 2..4;
}

/// A record of a report: what a member asks of a group.
#[derive(Debug, PartialEq, Eq, Clone, Copy)]
pub struct Record<'a, A: Address> {
    /// What the record says about the group (RFC 3376 section 4.2.12).
    pub record_type: RecordType,
    /// The group.
    pub group: A,
    /// The sources that it says this of.
    pub sources: Sources<'a, A>,
    /// Auxiliary data, which no version has defined yet.
    pub auxiliary: &'a [u8],
}

// The bytes of the record at the front of the octets, by its own counts; None where they are fewer.
pub(crate) fn record_len<A: Address>(octets: &[u8]) -> Option<usize> {
    let width = A::width();
    if octets.len() < 4 + width {
        return None;
    }
    let sources = width * octets.u16_at(field::SOURCE_COUNT) as usize;
    let words = octets.u8_at(field::AUXILIARY_WORDS) as usize;
    let len = 4 + width + sources + 4 * words;
    if octets.len() < len {
        return None;
    }
    Some(len)
}

// The record that is all of these octets.
pub(crate) fn read_record<A: Address>(octets: &[u8]) -> Record<'_, A> {
    let sources_at = 4 + A::width();
    let auxiliary_at = sources_at + A::width() * octets.u16_at(field::SOURCE_COUNT) as usize;
    Record {
        record_type: RecordType::from(octets.u8_at(field::RECORD_TYPE)),
        group: A::read(octets.range(4, sources_at)),
        sources: Sources::of_octets(&octets[sources_at..auxiliary_at]),
        auxiliary: &octets[auxiliary_at..],
    }
}
