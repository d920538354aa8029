// Made from crates/wirebase/src/capabilities.rt by rust/erase.
//! Which checksums are verified and computed here, and which are left to the device.

/// Whether this library handles a protocol's checksum: in both directions, in one, or in none.
#[derive(Debug, Default, Clone, Copy, PartialEq, Eq)]
pub enum Checksum {
    /// Verified when a packet is read, and computed when one is written.
    #[default]
    Both,
    /// Verified when a packet is read.
    Rx,
    /// Computed when a packet is written.
    Tx,
    /// Neither verified nor computed.
    None,
}

impl Checksum {
    /// Whether the checksum of a packet that is read is verified.
    pub fn rx(&self) -> bool {
        match *self {
            Checksum::Both | Checksum::Rx => true,
            Checksum::Tx | Checksum::None => false,
        }
    }

    /// Whether the checksum of a packet that is written is computed.
    pub fn tx(&self) -> bool {
        match *self {
            Checksum::Both | Checksum::Tx => true,
            Checksum::Rx | Checksum::None => false,
        }
    }
}

/// How the checksum of each protocol is handled.
#[derive(Debug, Clone, Copy, PartialEq, Eq)]
pub struct ChecksumCapabilities {
    /// The checksum of the IPv4 header.
    pub ipv4: Checksum,
    /// The checksum of UDP, with the pseudo header of IPv4 or IPv6.
    pub udp: Checksum,
    /// The checksum of TCP, which nothing here reads or writes: the field is there because smoltcp has it.
    pub tcp: Checksum,
    /// The checksum of ICMPv4.
    pub icmpv4: Checksum,
    /// The checksum of ICMPv6, with the pseudo header of IPv6.
    pub icmpv6: Checksum,
}

impl ChecksumCapabilities {
    /// No checksum is verified and none is computed.
    pub fn ignored() -> ChecksumCapabilities {
        ChecksumCapabilities {
            ipv4: Checksum::None,
            udp: Checksum::None,
            tcp: Checksum::None,
            icmpv4: Checksum::None,
            icmpv6: Checksum::None,
        }
    }
}

/// Every checksum is verified, and every one is computed.
impl Default for ChecksumCapabilities {
    fn default() -> ChecksumCapabilities {
        ChecksumCapabilities {
            ipv4: Checksum::Both,
            udp: Checksum::Both,
            tcp: Checksum::Both,
            icmpv4: Checksum::Both,
            icmpv6: Checksum::Both,
        }
    }
}
