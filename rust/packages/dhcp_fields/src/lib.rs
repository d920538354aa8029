// Made from crates/dhcp_fields/src/lib.rt by rust/erase.
//! The fields of DHCP packets, in lines or in JSON.

pub mod dhcp;
pub mod header;
mod kinds;
pub mod options;
pub mod refusal;
mod texts;

pub use dhcp::show_dhcp;
pub use refusal::Refusal;
