// Made from crates/packet_fields/src/form.rt by rust/erase.
//! The forms in which fields are printed.

/// The form in which fields are printed.
#[derive(Debug, PartialEq, Eq, Clone, Copy)]
pub enum Form {
    /// A line for each, as `  name=value`.
    Lines,
    /// A member of a JSON object for each (RFC 8259), as `,"name":value`.
    Json,
}
