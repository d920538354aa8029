// Made from crates/tests_icmp_fields/src/lib.rt by rust/erase.
//! The tests of `icmp_fields`, over its public calls.

#[cfg(test)]
mod icmp4;
#[cfg(test)]
mod icmp6;
#[cfg(test)]
mod interfaces;
#[cfg(test)]
mod queries;
#[cfg(test)]
mod testing;
