// Made from crates/record_wire/src/multicast.rt by rust/erase.
//! The class in multicast DNS, whose top bit is a flag (RFC 6762 sections 5.4 and 10.2).
//!
//! ```
//! use control_wire::record::rdata::RData;
//! use control_wire::record::{Record, types};
//! use control_wire::Ipv4Address;
//!
//! // An address of a host, which caches are to take in the place of those that they have.
//! let (_, record) = Record::parse(b"\x04host\x05local\0\0\x01\x80\x01\0\0\0\x78\0\x04\xc0\0\x02\x01")?;
//! assert_eq!((record.type_, record.multicast_class()), (types::A, 1));
//! assert!(record.flushes_cache());
//! assert_eq!(record.multicast_rdata()?, RData::A(Ipv4Address::new(192, 0, 2, 1)));
//! # Ok::<(), control_wire::Error>(())
//! ```

use crate::dns_wire::dns::Type;
use crate::record::record::{Question, Record};
use crate::record::types;

// The bit of a class that is a flag in multicast DNS.
const TOP_BIT: u16 = 0x8000;

/// The class without its top bit, which is a flag in multicast DNS (RFC 6762 sections 5.4 and 10.2). The class of an
/// OPT record is a payload size and has no flag: `Record::multicast_class` leaves it as it is.
pub fn class_of(class: u16) -> u16 {
    class % TOP_BIT
}

/// Whether a class has its top bit set: in a question of multicast DNS it asks for a unicast answer (RFC 6762 section
/// 5.4), in a record it tells caches to drop what they had (RFC 6762 section 10.2).
pub fn has_top_bit(class: u16) -> bool {
    class >= TOP_BIT
}

// Whether this is the type OPT, whose class is a payload size (RFC 6891 section 6.1.2).
pub(crate) fn is_opt(type_: Type) -> bool {
    matches!(type_, types::OPT)
}

/// The class of a question, which in multicast DNS is without its top bit (RFC 6762 section 5.4).
pub fn question_class(is_multicast: bool, question: &Question<'_>) -> u16 {
    if is_multicast {
        return question.multicast_class();
    }
    question.class
}

/// The class of a record, which in multicast DNS is without its top bit (RFC 6762 section 10.2).
pub fn record_class(is_multicast: bool, record: &Record<'_>) -> u16 {
    if is_multicast {
        return record.multicast_class();
    }
    record.class
}

/// Whether a question of multicast DNS wants its answer sent to the asker alone (RFC 6762 section 5.4); false for one
/// of another message.
pub fn wants_unicast(is_multicast: bool, question: &Question<'_>) -> bool {
    is_multicast && question.wants_unicast()
}

/// Whether a record of multicast DNS tells caches to drop what they have (RFC 6762 section 10.2); false for one of
/// another message.
pub fn flushes_cache(is_multicast: bool, record: &Record<'_>) -> bool {
    is_multicast && record.flushes_cache()
}
