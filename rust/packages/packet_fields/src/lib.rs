// Made from crates/packet_fields/src/lib.rt by rust/erase.
//! The fields of packets, printed in lines or as members of a JSON object.

pub mod entries;
pub mod entry;
pub mod escapes;
pub mod field;
pub mod form;
pub mod label;
pub mod names;
pub mod output;
pub mod parts;
pub mod ports;
pub mod texts;
pub mod value;

pub use form::Form;
