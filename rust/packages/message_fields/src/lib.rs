// Made from crates/message_fields/src/lib.rt by rust/erase.
//! What messages of control protocols hold, as fields in lines or in JSON: their checksums, and their fields as far as
//! they can be read.

mod bodies;
mod icmp;
pub mod message;
pub mod refusal;
mod show;
mod udp;

pub use bodies::show_hop_by_hop;
pub use message::{ChecksumState, Message, Service};
pub use refusal::Refusal;
pub use show::{show_cut_message, show_message};
