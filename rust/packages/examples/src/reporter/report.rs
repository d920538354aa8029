// Made from crates/examples/src/reporter/report.rt by rust/erase.
//! What a host reports of a group, and the message by which it does.

use super::MOST_SOURCES;
use super::reported::AskedSource;
use crate::querier::reception::RouterAddress;
use arrayvec::ArrayVec;
use control_wire::groups::{Family, Membership, Message, RecordType, Records};
use control_wire::{IPV6_LINK_LOCAL_ALL_ROUTERS, Ipv4Address, Ipv6Address};

/// An address of a group that a host may be a member of.
pub trait MemberAddress: RouterAddress {
    /// The address that reports of the newest version go to: 224.0.0.22 (RFC 3376 section 4.2.14) or `ff02::16`
    /// (RFC 3810 section 5.2.14).
    fn reports() -> Self;

    /// All routers of a link: 224.0.0.2 or `ff02::2`.
    fn routers() -> Self;
}

impl MemberAddress for Ipv4Address {
    fn reports() -> Ipv4Address {
        Ipv4Address::new(224, 0, 0, 22)
    }

    fn routers() -> Ipv4Address {
        Ipv4Address::new(224, 0, 0, 2)
    }
}

impl MemberAddress for Ipv6Address {
    fn reports() -> Ipv6Address {
        Ipv6Address::new(0xff02, 0, 0, 0, 0, 0, 0, 0x16)
    }

    fn routers() -> Ipv6Address {
        IPV6_LINK_LOCAL_ALL_ROUTERS
    }
}

/// What is to be reported of a group.
pub struct Report<A> {
    /// The group.
    pub group: A,
    /// Whether the host is a member of it.
    pub is_member: bool,
    /// Whether that has changed. If not, it answers queries.
    pub is_change: bool,
    /// The sources that queries asked about: empty where they asked about the group, and of a change.
    pub asked: ArrayVec<AskedSource<A>, MOST_SOURCES>,
}

impl<A: MemberAddress> Report<A> {
    /// The type of the record by which the newest version reports it, with the sources that were asked about.
    pub fn record_type(&self) -> RecordType {
        match (self.is_change, self.is_member) {
            (true, true) => RecordType::ChangeToExclude,
            (true, false) => RecordType::ChangeToInclude,
            _ if self.asked.is_empty() => RecordType::ModeIsExclude,
            _ => RecordType::ModeIsInclude,
        }
    }

    /// Where it goes by a message of this version: to the group itself where that is an older one, or to all routers
    /// where the host leaves it (RFC 2236 section 3, RFC 2710 section 4).
    pub fn destination(&self, version: u8) -> A {
        if is_newest::<A>(version) {
            A::reports()
        } else if self.is_member {
            self.group
        } else {
            A::routers()
        }
    }

    /// The message of this version, which in the newest has these records. None where the version has none: version 1
    /// of IGMP has no message of a host that leaves.
    pub fn message<'a>(&self, version: u8, records: Records<'a, A>) -> Option<Membership<'a, A>> {
        let group = self.group;
        if is_newest::<A>(version) {
            return Some(Message::Report { records });
        }
        match (is_oldest::<A>(version), self.is_member) {
            (true, true) => Some(Message::OldestReport { group }),
            (true, false) => None,
            (false, true) => Some(Message::OlderReport { group }),
            (false, false) => Some(Message::Leave { group }),
        }
    }
}

// Whether it is the newest version.
fn is_newest<A: MemberAddress>(version: u8) -> bool {
    match A::family() {
        Family::Igmp => version == 3,
        Family::Mld => version == 2,
    }
}

// Whether it is version 1 of IGMP.
fn is_oldest<A: MemberAddress>(version: u8) -> bool {
    match A::family() {
        Family::Igmp => version == 1,
        Family::Mld => false,
    }
}
