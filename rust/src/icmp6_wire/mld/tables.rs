// Made from crates/icmp6_wire/src/mld/tables.rt by rust/erase.
//! The numbers of multicast listener discovery (RFC 3810 section 5.2.12).

use core::fmt;

/// What a record says about the sources that a listener asks of a group, one byte (RFC 3810 section 5.2.12).
#[derive(Debug, PartialEq, Eq, PartialOrd, Ord, Clone, Copy)]
pub enum RecordType {
    /// It listens to these sources alone.
    ModeIsInclude,
    /// It listens to all sources but these.
    ModeIsExclude,
    /// From now on it listens to these sources alone.
    ChangeToInclude,
    /// From now on it listens to all sources but these.
    ChangeToExclude,
    /// It listens to these sources too.
    AllowNewSources,
    /// It listens to these sources no longer.
    BlockOldSources,
    /// Any other type, by its number.
    Unknown(u8),
}

impl From<u8> for RecordType {
    fn from(number: u8) -> RecordType {
        record_type_numbered(number)
    }
}

// The type of a number.
fn record_type_numbered(number: u8) -> RecordType {
    match number {
        1 => RecordType::ModeIsInclude,
        2 => RecordType::ModeIsExclude,
        3 => RecordType::ChangeToInclude,
        4 => RecordType::ChangeToExclude,
        5 => RecordType::AllowNewSources,
        6 => RecordType::BlockOldSources,
        other => RecordType::Unknown(other),
    }
}

impl From<RecordType> for u8 {
    fn from(record_type: RecordType) -> u8 {
        match record_type {
            RecordType::ModeIsInclude => 1,
            RecordType::ModeIsExclude => 2,
            RecordType::ChangeToInclude => 3,
            RecordType::ChangeToExclude => 4,
            RecordType::AllowNewSources => 5,
            RecordType::BlockOldSources => 6,
            RecordType::Unknown(other) => other,
        }
    }
}

/// The name of the type, as `MODE_IS_INCLUDE`, and of any other its number, as `unknown 7`.
impl fmt::Display for RecordType {
    fn fmt(&self, f: &mut fmt::Formatter<'_>) -> fmt::Result {
        let words = match self {
            RecordType::ModeIsInclude => "MODE_IS_INCLUDE",
            RecordType::ModeIsExclude => "MODE_IS_EXCLUDE",
            RecordType::ChangeToInclude => "CHANGE_TO_INCLUDE_MODE",
            RecordType::ChangeToExclude => "CHANGE_TO_EXCLUDE_MODE",
            RecordType::AllowNewSources => "ALLOW_NEW_SOURCES",
            RecordType::BlockOldSources => "BLOCK_OLD_SOURCES",
            RecordType::Unknown(number) => return write!(f, "unknown {number}"),
        };
        f.write_str(words)
    }
}
