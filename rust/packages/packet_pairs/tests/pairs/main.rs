// Made from crates/tests_packet_pairs/src/lib.rt by rust/erase.
//! The tests of `packet_pairs`, over its public calls.

#[cfg(test)]
mod captured;
#[cfg(test)]
mod limits;
#[cfg(test)]
mod made;
#[cfg(test)]
mod pairing;
#[cfg(test)]
mod showing;
#[cfg(test)]
mod testing;
