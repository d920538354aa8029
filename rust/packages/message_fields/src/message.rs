// Made from crates/message_fields/src/message.rt by rust/erase.
//! Messages by their octets, and their checksums.

use control_wire::Ipv6Address;
use control_wire::frames::tcp::verify_checksum;
use control_wire::frames::{Addresses, UdpPacket};
use control_wire::icmpv4;
use control_wire::icmpv6;

/// The protocols over UDP.
#[derive(Debug, PartialEq, Eq, Clone, Copy)]
pub enum Service {
    /// DNS (RFC 1035).
    Dns,
    /// Multicast DNS (RFC 6762).
    Mdns,
    /// Link-local multicast name resolution (RFC 4795).
    Llmnr,
    /// The NetBIOS name service (RFC 1002 section 4.2).
    Nbns,
    /// DHCPv4 (RFC 2131).
    Dhcp,
}

/// A message of a control protocol by its octets, as far as they are there, with the addresses that its checksum
/// covers.
#[derive(Debug, PartialEq, Eq, Clone, Copy)]
pub enum Message<'a> {
    /// An ICMPv4 message.
    Icmp4(&'a [u8]),
    /// An IGMP message.
    Igmp(&'a [u8]),
    /// An ICMPv6 message from one address to another.
    Icmp6(Ipv6Address, Ipv6Address, &'a [u8]),
    /// A UDP datagram of a service, from its header on.
    Udp(Service, Addresses, &'a [u8]),
    /// A DNS message over TCP: the segment that it is in, from its header on, and the message.
    Tcp(Addresses, &'a [u8], &'a [u8]),
}

/// What the checksum of a message says.
#[derive(Debug, PartialEq, Eq, Clone, Copy)]
pub enum ChecksumState {
    /// It holds.
    Good,
    /// It does not hold, or is missing where IPv6 asks for one (RFC 8200 section 8.1).
    Bad,
    /// There is none, as UDP over IPv4 allows (RFC 768).
    None,
    /// It can't be verified: the octets are fewer than its header has, or than the length of UDP says.
    Unverified,
}

impl ChecksumState {
    /// The name of the state.
    pub fn name(self) -> &'static str {
        match self {
            ChecksumState::Good => "good",
            ChecksumState::Bad => "bad",
            ChecksumState::None => "none",
            ChecksumState::Unverified => "unverified",
        }
    }

    /// Whether a message of this checksum is refused: where that is asked, and the checksum does not hold.
    pub fn is_refused(self, is_strict: bool) -> bool {
        is_strict && self == ChecksumState::Bad
    }
}

// The length of the header of ICMP and of IGMP up to the end of the checksum.
const CHECKSUM_END: usize = 4;

impl Message<'_> {
    /// What the checksum says.
    pub fn checksum(&self) -> ChecksumState {
        match self {
            Message::Icmp4(octets) | Message::Igmp(octets) => plain_state(octets),
            Message::Icmp6(src_addr, dst_addr, octets) => icmp6_state(src_addr, dst_addr, octets),
            Message::Udp(_, addresses, octets) => udp_state(addresses, octets),
            Message::Tcp(addresses, segment, _) => tcp_state(addresses, segment),
        }
    }
}

// What the checksum of a message of ICMPv4 or of IGMP says, which covers the message alone.
fn plain_state(octets: &[u8]) -> ChecksumState {
    if octets.len() < CHECKSUM_END {
        return ChecksumState::Unverified;
    }
    if icmpv4::Packet::new_unchecked(octets).verify_checksum() {
        return ChecksumState::Good;
    }
    ChecksumState::Bad
}

fn icmp6_state(src_addr: &Ipv6Address, dst_addr: &Ipv6Address, octets: &[u8]) -> ChecksumState {
    if octets.len() < CHECKSUM_END {
        return ChecksumState::Unverified;
    }
    if icmpv6::Packet::new_unchecked(octets).verify_checksum(src_addr, dst_addr) {
        return ChecksumState::Good;
    }
    ChecksumState::Bad
}

fn udp_state(addresses: &Addresses, octets: &[u8]) -> ChecksumState {
    let packet = UdpPacket::new_unchecked(octets);
    if packet.check_len().is_err() {
        return ChecksumState::Unverified;
    }
    if packet.checksum() == 0 {
        return without_checksum(addresses.is_v4());
    }
    if packet.verify_checksum(addresses) {
        return ChecksumState::Good;
    }
    ChecksumState::Bad
}

fn tcp_state(addresses: &Addresses, segment: &[u8]) -> ChecksumState {
    if verify_checksum(addresses, segment) {
        return ChecksumState::Good;
    }
    ChecksumState::Bad
}

// The state of a UDP datagram whose checksum is 0, which means that there is none.
fn without_checksum(is_v4: bool) -> ChecksumState {
    if is_v4 {
        ChecksumState::None
    } else {
        ChecksumState::Bad
    }
}
