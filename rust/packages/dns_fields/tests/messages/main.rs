// Made from crates/tests_dns_fields/src/lib.rt by rust/erase.
//! The tests of `dns_fields`, over its public calls.

#[cfg(test)]
mod dns;
#[cfg(test)]
mod messages;
#[cfg(test)]
mod nbns;
#[cfg(test)]
mod testing;
