// Made from crates/capture/src/lib.rt by rust/erase.
#![doc = include_str!("../README.md")]

pub mod calendar;
mod capture;
mod ending;
mod order;
mod packet;
pub mod pcap;
pub mod pcapng;
mod reader;
mod text;
mod time;
mod unit;

pub use capture::{Capture, MOST_INTERFACES, MOST_OCTETS, Next, Record};
pub use ending::{Ending, Fault, Refusal};
pub use order::Order;
pub use packet::Packet;
pub use time::Time;

mod by_hand;

pub use by_hand::*;
