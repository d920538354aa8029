//! Numbers and octets that vary from input to input, and are the same in each run.

use control_wire::{EthernetAddress, Ipv4Address, Ipv6Address, RawHardwareAddress};

/// How many inputs a case has.
pub const INPUTS: usize = 64;

/// A generator of numbers (xorshift).
pub struct Random {
    state: u64,
}

impl Random {
    /// The generator that a seed gives.
    pub fn new(seed: u64) -> Random {
        Random {
            state: seed.wrapping_mul(0x9e37_79b9_7f4a_7c15) | 1,
        }
    }

    /// The next number.
    pub fn next(&mut self) -> u64 {
        self.state ^= self.state << 13;
        self.state ^= self.state >> 7;
        self.state ^= self.state << 17;
        self.state.wrapping_mul(0x2545_f491_4f6c_dd1d)
    }

    /// The next number below a limit.
    pub fn below(&mut self, limit: u64) -> u64 {
        (self.next() >> 32) % limit
    }

    /// A number of 8 bits.
    pub fn octet(&mut self) -> u8 {
        self.below(256) as u8
    }

    /// A number of 16 bits.
    pub fn u16(&mut self) -> u16 {
        self.below(65_536) as u16
    }

    /// A number of 32 bits.
    pub fn u32(&mut self) -> u32 {
        (self.next() >> 32) as u32
    }

    /// So many octets.
    pub fn octets(&mut self, len: usize) -> Vec<u8> {
        (0..len).map(|_| self.octet()).collect()
    }

    /// So many octets that last as long as the program.
    pub fn leaked(&mut self, len: usize) -> &'static [u8] {
        self.octets(len).leak()
    }

    /// Some small letters.
    pub fn letters(&mut self, len: usize) -> Vec<u8> {
        (0..len).map(|_| b'a' + self.below(26) as u8).collect()
    }

    /// Whether one of two.
    pub fn is_even(&mut self) -> bool {
        self.below(2) == 0
    }

    /// An address of IPv4.
    pub fn ipv4(&mut self) -> Ipv4Address {
        Ipv4Address::from_octets(self.u32().to_be_bytes())
    }

    /// An address of IPv6.
    pub fn ipv6(&mut self) -> Ipv6Address {
        let octets = self.octets(16);
        Ipv6Address::from_octets(octets.try_into().unwrap())
    }

    /// A multicast group of IPv6.
    pub fn group(&mut self) -> Ipv6Address {
        let mut octets = self.ipv6().octets();
        octets[0] = 0xff;
        octets[1] = 0x02;
        Ipv6Address::from_octets(octets)
    }

    /// An address on an Ethernet.
    pub fn ethernet(&mut self) -> EthernetAddress {
        EthernetAddress::from_bytes(&self.octets(6))
    }

    /// The same as an option has it.
    pub fn link_address(&mut self) -> RawHardwareAddress {
        RawHardwareAddress::from(self.ethernet())
    }
}

/// So many values, which a function makes of a generator and their place.
pub fn many<T>(seed: u64, make: impl Fn(&mut Random, usize) -> T) -> Vec<T> {
    let mut random = Random::new(seed);
    (0..INPUTS).map(|place| make(&mut random, place)).collect()
}
