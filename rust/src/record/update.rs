// Made from crates/record_wire/src/update.rt by rust/erase.
//! The data of records of updates, which may have none (RFC 2136 section 2.5).
//!
//! ```
//! use control_wire::record::rdata::RData;
//! use control_wire::record::{classes, types};
//!
//! // An update deletes all mail servers of a name by a record of class ANY without data.
//! assert_eq!(RData::parse_update(types::MX, classes::ANY, b"")?, RData::Other(b""));
//! assert!(RData::parse(types::MX, classes::ANY, b"").is_err());
//! # Ok::<(), control_wire::Error>(())
//! ```

use crate::dns_wire::dns::Type;
use crate::record::classes;
use crate::record::rdata::RData;
use crate::record::rdata::refusal::{DataRefusal, why_no_data_of};
use crate::wirebase::Result;
use core::result;

impl<'a> RData<'a> {
    /// The data of a record of this type and class, which may be one of an update: of class NONE or ANY and without
    /// data it is `RData::Other` of no bytes, whatever its type (RFC 2136 section 2.5), and else what [`RData::parse`]
    /// gives. Refused where the bytes are not laid out as the type has it:
    /// [`RData::parse_update_or_refusal`] says why.
    pub fn parse_update(type_: Type, class: u16, octets: &'a [u8]) -> Result<RData<'a>> {
        if is_without_data(class, octets) {
            return Ok(RData::Other(octets));
        }
        RData::parse(type_, class, octets)
    }

    /// The data, as [`RData::parse_update`] reads it, or else why it refuses this: the check that fails first.
    pub fn parse_update_or_refusal(
        type_: Type,
        class: u16,
        octets: &'a [u8],
    ) -> result::Result<RData<'a>, DataRefusal> {
        match RData::parse_update(type_, class, octets) {
            Ok(data) => Ok(data),
            Err(_) => Err(why_no_data_of(type_, class, octets)),
        }
    }
}

// Whether a record of this class and data is one of an update without data.
pub(crate) fn is_without_data(class: u16, octets: &[u8]) -> bool {
    octets.is_empty() && matches!(class, classes::NONE | classes::ANY)
}
