// Made from crates/wirebase/src/hardware.rt by rust/erase.
//! Kinds of hardware, by their assigned numbers.

use core::fmt;

/// A kind of hardware, by its assigned number (RFC 826, RFC 2131 section 2). DHCP has it in one byte.
#[derive(Debug, PartialEq, Eq, PartialOrd, Ord, Clone, Copy)]
pub enum Hardware {
    /// Addresses have six octets.
    Ethernet,
    /// Any other kind, by its number.
    Unknown(u16),
}

impl From<u16> for Hardware {
    fn from(number: u16) -> Hardware {
        match number {
            1 => Hardware::Ethernet,
            other => Hardware::Unknown(other),
        }
    }
}

impl From<Hardware> for u16 {
    fn from(hardware: Hardware) -> u16 {
        match hardware {
            Hardware::Ethernet => 1,
            Hardware::Unknown(other) => other,
        }
    }
}

/// The name, or the number where there is none.
impl fmt::Display for Hardware {
    fn fmt(&self, f: &mut fmt::Formatter<'_>) -> fmt::Result {
        match *self {
            Hardware::Ethernet => f.write_str("Ethernet"),
            Hardware::Unknown(number) => write!(f, "{number}"),
        }
    }
}
