// Made from crates/quote_wire/src/message.rt by rust/erase.
//! Whole ICMP messages: errors with what they quote, whole or cut short, and messages of every other type that is read.

mod icmpv4;
mod icmpv6;

pub use icmpv4::{Icmpv4Message, Icmpv4Refusal};
pub use icmpv6::{Icmpv6Message, Icmpv6Refusal};
