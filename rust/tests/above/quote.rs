// Made from crates/tests_above/src/quote.rt by rust/erase.
mod icmpv4_error;
mod icmpv6_error;
mod message;
