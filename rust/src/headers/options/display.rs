// Made from crates/header_wire/src/options/display.rt by rust/erase.
//! What options and their refusals print.

use super::{Ipv4Option, OptionRefusal};
use core::fmt;

/// The option by its name, or by its kind and the number of bytes of its data.
impl fmt::Display for Ipv4Option<'_> {
    fn fmt(&self, f: &mut fmt::Formatter<'_>) -> fmt::Result {
        match self {
            Ipv4Option::NoOperation => write!(f, "no operation"),
            Ipv4Option::RouterAlert(value) => write!(f, "router alert value={value}"),
            Ipv4Option::Other { kind, data } => {
                let len = data.len();
                write!(f, "option kind={kind} len={len}")
            }
        }
    }
}

/// The reason, as a phrase.
impl fmt::Display for OptionRefusal {
    fn fmt(&self, f: &mut fmt::Formatter<'_>) -> fmt::Result {
        match self {
            OptionRefusal::NoLength => write!(f, "an option ends before its length"),
            OptionRefusal::Length(len) => write!(f, "a length of {len} is below 2"),
            OptionRefusal::Cut(len) => write!(f, "fewer than the {len} bytes of an option"),
        }
    }
}
