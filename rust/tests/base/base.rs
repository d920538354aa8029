// Made from crates/tests_base/src/base.rt by rust/erase.
mod capabilities;
mod checksum;
mod duration;
mod error;
mod ethernet;
mod hardware;
mod ip;
mod ipv4;
mod ipv6;
