// Made from crates/tests_pcapdump/src/lib.rt by rust/erase.
//! The tests of `dump_captures`, and of the endpoints and ports that the crates below it print, over public calls.

#[cfg(test)]
mod endpoint;
#[cfg(test)]
mod pcapdump;
#[cfg(test)]
mod ports;
#[cfg(test)]
mod testing;
