// Made from crates/dns_fields/src/lib.rt by rust/erase.
//! The fields of DNS messages, and of the NetBIOS name service, in lines or in JSON.

mod edns;
pub mod header;
pub mod kind;
mod lists;
pub mod message;
pub mod nbns;
mod netbios;
pub mod node;
pub mod record;
pub mod unread;
mod words;
