//! What is written by hand, and not proved: each file says what it has.

mod addresses;
mod names;
mod octets;
mod packets;
pub mod smoltcp;
mod values;
