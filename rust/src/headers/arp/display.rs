// Made from crates/header_wire/src/arp/display.rt by rust/erase.
//! What packets of ARP and their refusals print.

use super::{Refusal, Repr};
use crate::wirebase::text::Hex;
use core::fmt;

/// The operation, and the addresses of the sender and of the target, each with its hardware address.
impl fmt::Display for Repr {
    fn fmt(&self, f: &mut fmt::Formatter<'_>) -> fmt::Result {
        let operation = self.operation;
        let source = self.source_protocol_addr;
        let source_hardware = self.source_hardware_addr;
        let target = self.target_protocol_addr;
        let target_hardware = self.target_hardware_addr;
        write!(
            f,
            "ARP {operation} {source} ({source_hardware}) > {target} ({target_hardware})"
        )
    }
}

/// The reason, as a phrase.
impl fmt::Display for Refusal {
    fn fmt(&self, f: &mut fmt::Formatter<'_>) -> fmt::Result {
        match self {
            Refusal::Short => write!(f, "fewer than 28 bytes"),
            Refusal::HardwareType(number) => write!(f, "hardware type {number} is not Ethernet"),
            Refusal::ProtocolType(number) => {
                write!(
                    f,
                    "protocol type 0x{} is not IPv4",
                    Hex(&number.to_be_bytes())
                )
            }
            Refusal::HardwareLen(len) => write!(f, "a hardware address of {len} bytes is not of 6"),
            Refusal::ProtocolLen(len) => write!(f, "a protocol address of {len} bytes is not of 4"),
        }
    }
}
