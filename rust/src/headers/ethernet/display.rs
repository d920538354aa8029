// Made from crates/header_wire/src/ethernet/display.rt by rust/erase.
//! What headers of Ethernet and their refusals print.

use super::{Header, Refusal};
use crate::wirebase::text::Hex;
use core::fmt;

/// The addresses, and the EtherType in hexadecimal.
impl fmt::Display for Header {
    fn fmt(&self, f: &mut fmt::Formatter<'_>) -> fmt::Result {
        let from = self.src_addr;
        let to = self.dst_addr;
        write!(
            f,
            "{from} > {to} ether_type=0x{}",
            Hex(&self.ether_type.to_be_bytes())
        )
    }
}

/// The reason, as a phrase.
impl fmt::Display for Refusal {
    fn fmt(&self, f: &mut fmt::Formatter<'_>) -> fmt::Result {
        match self {
            Refusal::Short => write!(f, "fewer than 14 bytes"),
        }
    }
}
