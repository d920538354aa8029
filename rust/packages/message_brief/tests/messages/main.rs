// Made from crates/tests_message_brief/src/lib.rt by rust/erase.
//! The tests of `message_brief`, over its public calls.

#[cfg(test)]
mod messages;
#[cfg(test)]
mod testing;
