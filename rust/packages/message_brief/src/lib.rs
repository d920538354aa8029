// Made from crates/message_brief/src/lib.rt by rust/erase.
//! What messages of control protocols say, on a line each.

mod dhcp;
mod dns;
mod groups;
mod icmp;
mod messages;
mod neighbors;
mod quote;
mod words;

pub use messages::{show_brief, show_cut_brief};
