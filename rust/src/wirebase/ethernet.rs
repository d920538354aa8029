// Made from crates/wirebase/src/ethernet.rt by rust/erase.
//! Hardware addresses.

use crate::wirebase::text::HexColons;
use core::fmt::{self, Display};

/// The greatest number of bytes of a hardware address.
pub const MAX_HARDWARE_ADDRESS_LEN: usize = 8;

/// An address of Ethernet: six octets, in the order in which they are sent (IEEE 802, RFC 894).
#[derive(Debug, Clone, Copy)]
pub struct EthernetAddress(pub [u8; 6]);

impl EthernetAddress {
    /// The address of these octets, of which there have to be 6. Addresses are equal exactly when their octets are.
    ///
    /// # Panics
    ///
    /// May panic where what is asked for above does not hold.
    pub fn from_bytes(bytes: &[u8]) -> EthernetAddress {
        EthernetAddress(bytes.try_into().unwrap())
    }

    /// The octets.
    pub fn as_bytes(&self) -> &[u8] {
        &self.0
    }
}

impl From<[u8; 6]> for EthernetAddress {
    fn from(octets: [u8; 6]) -> EthernetAddress {
        EthernetAddress(octets)
    }
}

/// Addresses are equal exactly when their octets are.
impl PartialEq for EthernetAddress {
    fn eq(&self, other: &EthernetAddress) -> bool {
        self.as_bytes() == other.as_bytes()
    }
}

impl Eq for EthernetAddress {}

/// The octets as two hexadecimal digits each, with colons between them, as `52:54:00:12:34:56`.
impl fmt::Display for EthernetAddress {
    fn fmt(&self, f: &mut fmt::Formatter<'_>) -> fmt::Result {
        HexColons(self.as_bytes()).fmt(f)
    }
}

/// A hardware address of some medium: 0 to 8 bytes. Addresses are equal exactly when their bytes are.
#[derive(Debug, PartialEq, Eq, Clone, Copy)]
pub struct RawHardwareAddress {
    len: usize,
    // The bytes of the address, and zeros.
    bytes: [u8; MAX_HARDWARE_ADDRESS_LEN],
}

impl RawHardwareAddress {
    /// The address of these bytes, of which there may be 8 at most.
    ///
    /// # Panics
    ///
    /// May panic where what is asked for above does not hold.
    #[inline]
    pub fn from_bytes(bytes: &[u8]) -> RawHardwareAddress {
        let mut all = [0; MAX_HARDWARE_ADDRESS_LEN];
        let len = bytes.len();
        all[..len].copy_from_slice(bytes);
        RawHardwareAddress { len, bytes: all }
    }

    /// The bytes.
    pub fn as_bytes(&self) -> &[u8] {
        &self.bytes[..self.len]
    }

    /// The number of bytes, 0 to 8.
    pub fn len(&self) -> usize {
        self.len
    }

    /// Whether there are no bytes.
    pub fn is_empty(&self) -> bool {
        self.len == 0
    }
}

impl From<EthernetAddress> for RawHardwareAddress {
    fn from(address: EthernetAddress) -> RawHardwareAddress {
        RawHardwareAddress::from_bytes(address.as_bytes())
    }
}

/// The bytes as two hexadecimal digits each, with colons between them.
impl fmt::Display for RawHardwareAddress {
    fn fmt(&self, f: &mut fmt::Formatter<'_>) -> fmt::Result {
        HexColons(self.as_bytes()).fmt(f)
    }
}
