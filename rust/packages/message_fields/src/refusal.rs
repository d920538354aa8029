// Made from crates/message_fields/src/refusal.rt by rust/erase.
//! Why a message is refused, or read in part.

use control_wire::frames::udp;
use control_wire::icmpv6;
use control_wire::quotes::message::{Icmpv4Refusal, Icmpv6Refusal};
use control_wire::quotes::{icmpv4_error, icmpv6_error};
use control_wire::{icmpv4, igmp};
use dns_fields::unread::Unread;
use icmp_fields::refusal::Refusal as QueryRefusal;
use neighbor_fields::Lack;
use std::fmt;

/// Why a message is refused, or read in part: the first reason.
#[derive(Debug, PartialEq, Eq, Clone, Copy)]
pub enum Refusal {
    /// The checksum does not hold.
    Checksum,
    /// The header of UDP is refused.
    Udp(udp::Refusal),
    /// The datagram has fewer bytes than the header of UDP says.
    Cut,
    /// The ICMPv4 message is refused.
    Icmp4(Icmpv4Refusal),
    /// The IGMP message is refused.
    Igmp(igmp::Refusal),
    /// The ICMPv6 message is refused.
    Icmp6(Icmpv6Refusal),
    /// The message of ICMP that is neither an error nor an echo is refused.
    Query(QueryRefusal),
    /// The message of IGMP or of multicast listeners has less than it takes or counts.
    Lack(Lack),
    /// The DHCP packet is read in part.
    Dhcp(dhcp_fields::Refusal),
    /// The DNS message is read in part.
    Dns(Unread),
}

impl Refusal {
    /// Whether the type of the message is not known, which is no mistake of the message.
    pub fn is_unknown(self) -> bool {
        matches!(
            self,
            Refusal::Icmp4(Icmpv4Refusal::Error(icmpv4_error::Refusal::UnknownType(_)))
                | Refusal::Icmp4(Icmpv4Refusal::Message(icmpv4::Refusal::UnknownType(_)))
                | Refusal::Icmp6(Icmpv6Refusal::Error(icmpv6_error::Refusal::UnknownType(_)))
                | Refusal::Icmp6(Icmpv6Refusal::Message(icmpv6::Refusal::UnknownType(_)))
                | Refusal::Igmp(igmp::Refusal::UnknownType(_))
        )
    }
}

impl Refusal {
    /// Whether the group of a message of IGMP is none.
    pub(crate) fn is_group(self) -> bool {
        matches!(self, Refusal::Igmp(igmp::Refusal::Group(_)))
    }
}

/// The reason as a phrase.
impl fmt::Display for Refusal {
    fn fmt(&self, f: &mut fmt::Formatter<'_>) -> fmt::Result {
        match self {
            Refusal::Checksum => write!(f, "the checksum does not hold"),
            Refusal::Udp(refusal) => write!(f, "{refusal}"),
            Refusal::Cut => write!(f, "fewer bytes than the header of UDP says"),
            Refusal::Icmp4(refusal) => write!(f, "{refusal}"),
            Refusal::Igmp(refusal) => write!(f, "{refusal}"),
            Refusal::Icmp6(refusal) => write!(f, "{refusal}"),
            Refusal::Query(refusal) => write!(f, "{refusal}"),
            Refusal::Lack(lack) => write!(f, "{lack}"),
            Refusal::Dhcp(refusal) => write!(f, "{refusal}"),
            Refusal::Dns(unread) => write!(f, "{unread}"),
        }
    }
}
