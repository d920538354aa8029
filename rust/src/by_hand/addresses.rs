//! What a Rust programmer expects of an address, as `core::net` has it; and conversions between the addresses and
//! times here and those of `core`.

use crate::{Duration, EthernetAddress, Ipv4Address, Ipv6Address};
use core::net::{AddrParseError, Ipv4Addr, Ipv6Addr};
use core::str::FromStr;

impl EthernetAddress {
    /// All machines of the network, `ff:ff:ff:ff:ff:ff`.
    pub const BROADCAST: EthernetAddress = EthernetAddress([0xff; 6]);

    /// Whether this is `ff:ff:ff:ff:ff:ff`.
    pub fn is_broadcast(&self) -> bool {
        *self == EthernetAddress::BROADCAST
    }

    /// Whether frames to this address go to many receivers, the broadcast address among them: the lowest bit of the
    /// first octet is set (IEEE 802).
    pub const fn is_multicast(&self) -> bool {
        self.0[0] & 1 != 0
    }
}

impl Ipv4Address {
    /// All machines of the link, 255.255.255.255 (RFC 919 section 7).
    pub const BROADCAST: Ipv4Address = Ipv4Address::new(255, 255, 255, 255);

    /// This machine itself, 127.0.0.1 (RFC 1122 section 3.2.1.3).
    pub const LOCALHOST: Ipv4Address = Ipv4Address::new(127, 0, 0, 1);

    /// The address whose octets are those of the number, the highest first.
    pub const fn from_bits(bits: u32) -> Ipv4Address {
        Ipv4Address::from_octets(bits.to_be_bytes())
    }

    /// The octets as one number, the highest first.
    pub const fn to_bits(self) -> u32 {
        u32::from_be_bytes(self.octets())
    }

    /// Whether this is 255.255.255.255.
    pub fn is_broadcast(&self) -> bool {
        *self == Ipv4Address::BROADCAST
    }

    /// Whether packets to this address stay on this machine: 127.0.0.0/8 (RFC 1122 section 3.2.1.3).
    pub const fn is_loopback(&self) -> bool {
        self.octets()[0] == 127
    }

    /// Whether this address is for use inside a network: 10.0.0.0/8, 172.16.0.0/12, 192.168.0.0/16 (RFC 1918).
    pub const fn is_private(&self) -> bool {
        matches!(
            self.octets(),
            [10, ..] | [172, 16..=31, ..] | [192, 168, ..]
        )
    }

    /// Whether this address is for use on one link alone: 169.254.0.0/16 (RFC 3927).
    pub const fn is_link_local(&self) -> bool {
        matches!(self.octets(), [169, 254, ..])
    }
}

impl Ipv6Address {
    /// This machine itself, `::1` (RFC 4291 section 2.5.3).
    pub const LOCALHOST: Ipv6Address = Ipv6Address::new(0, 0, 0, 0, 0, 0, 0, 1);

    /// The address whose octets are those of the number, the highest first.
    pub const fn from_bits(bits: u128) -> Ipv6Address {
        Ipv6Address::from_octets(bits.to_be_bytes())
    }

    /// The octets as one number, the highest first.
    pub const fn to_bits(self) -> u128 {
        u128::from_be_bytes(self.octets())
    }

    /// The eight groups of 16 bits, the highest first.
    pub const fn segments(&self) -> [u16; 8] {
        Ipv6Addr::from_bits(self.to_bits()).segments()
    }

    /// Whether this is `::1`.
    pub fn is_loopback(&self) -> bool {
        *self == Ipv6Address::LOCALHOST
    }

    /// The multicast group that a neighbor of this address listens to, `ff02::1:ff00:0/104` with the last 24 bits of
    /// the address (RFC 4291 section 2.7.1).
    pub const fn solicited_node(&self) -> Ipv6Address {
        let [.., g, h] = self.segments();
        Ipv6Address::new(0xff02, 0, 0, 0, 0, 1, 0xff00 | g & 0xff, h)
    }
}

impl From<Ipv4Address> for Ipv4Addr {
    fn from(address: Ipv4Address) -> Ipv4Addr {
        Ipv4Addr::from(address.octets())
    }
}

impl From<Ipv4Addr> for Ipv4Address {
    fn from(address: Ipv4Addr) -> Ipv4Address {
        Ipv4Address::from_octets(address.octets())
    }
}

impl From<Ipv6Address> for Ipv6Addr {
    fn from(address: Ipv6Address) -> Ipv6Addr {
        Ipv6Addr::from(address.octets())
    }
}

impl From<Ipv6Addr> for Ipv6Address {
    fn from(address: Ipv6Addr) -> Ipv6Address {
        Ipv6Address::from_octets(address.octets())
    }
}

/// The texts that `core::net::Ipv4Addr` reads.
impl FromStr for Ipv4Address {
    type Err = AddrParseError;

    fn from_str(text: &str) -> Result<Ipv4Address, AddrParseError> {
        Ok(Ipv4Addr::from_str(text)?.into())
    }
}

/// The texts that `core::net::Ipv6Addr` reads.
impl FromStr for Ipv6Address {
    type Err = AddrParseError;

    fn from_str(text: &str) -> Result<Ipv6Address, AddrParseError> {
        Ok(Ipv6Addr::from_str(text)?.into())
    }
}

impl From<Duration> for core::time::Duration {
    fn from(duration: Duration) -> core::time::Duration {
        core::time::Duration::from_micros(duration.total_micros())
    }
}
