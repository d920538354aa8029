// Made from crates/tests_packet_stats/src/lib.rt by rust/erase.
//! The tests of `packet_stats`, over its public calls.

#[cfg(test)]
mod captured;
#[cfg(test)]
mod counting;
#[cfg(test)]
mod dhcp;
#[cfg(test)]
mod groups;
#[cfg(test)]
mod limits;
#[cfg(test)]
mod made;
#[cfg(test)]
mod neighbors;
#[cfg(test)]
mod testing;
