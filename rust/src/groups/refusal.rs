// Made from crates/group_wire/src/refusal.rt by rust/erase.
//! Why octets are refused as a message about groups.

/// Why octets are refused as a message: the first check that fails.
#[derive(Debug, PartialEq, Eq, Clone, Copy)]
#[non_exhaustive]
pub enum Refusal {
    /// Fewer than 8 bytes.
    Short,
    /// The checksum is wrong.
    Checksum,
    /// A type that is not read, by its number.
    UnknownType(u8),
    /// A query has neither the length of an older version nor that of the newest (RFC 3376 section 7.1, RFC 3810
    /// section 8.1); or a report of an older version, or a leave message, ends before its group does.
    Length,
    /// A query counts more sources than there are, or a report more records.
    Cut,
}
