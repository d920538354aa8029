//! Membership of multicast groups: IGMP (RFC 3376) and MLD (RFC 3810), in the version that the
//! querier speaks.

use super::*;
use control_wire::frames::Datagram;
use control_wire::groups::{Family, Membership, RecordsWriter};
use control_wire::{IPV6_LINK_LOCAL_ALL_NODES, Ipv6OptionRepr};
use control_wire::{ipv6hbh, ipv6option::RouterAlert};
use examples::listener;
use examples::reporter::report::{MemberAddress, Report};
use std::fmt::Display;
use std::hash::{BuildHasher, RandomState};

/// A number by chance.
pub fn by_chance() -> u32 {
    RandomState::new().hash_one(()) as u32
}

/// The protocol of groups with such addresses.
pub trait Group: MemberAddress + Display {
    /// The group of all hosts, which nobody reports.
    const HOSTS: Self;

    fn groups(host: &mut Host) -> &mut Reporter<Self>;
    fn send(host: &mut Host, to: Self, message: &Membership<'_, Self>);
}

impl Group for Ipv4Address {
    const HOSTS: Ipv4Address = Ipv4Address::new(224, 0, 0, 1);

    fn groups(host: &mut Host) -> &mut Reporter<Self> {
        &mut host.igmp
    }

    fn send(host: &mut Host, to: Self, message: &Membership<'_, Self>) {
        let message = written(message.buffer_len(), |it| message.emit_igmp(it), &[]);
        host.send(Addresses::V4(host.v4, to), IpProtocol::Igmp, 1, &message);
    }
}

impl Group for Ipv6Address {
    const HOSTS: Ipv6Address = IPV6_LINK_LOCAL_ALL_NODES;

    fn groups(host: &mut Host) -> &mut Reporter<Self> {
        &mut host.mld
    }

    fn send(host: &mut Host, to: Self, message: &Membership<'_, Self>) {
        // It comes from `::` as long as there is no link-local address (RFC 3590 section 4).
        let own = host.addresses.source(&host.link_local);
        let own = own.filter(Ipv6Address::is_link_local);
        let (own, len) = (own.unwrap_or(Self::UNSPECIFIED), message.buffer_len());
        let message = written(len, |it| message.emit_mld(it, &own, &to), &[]);
        let payload = written(8, listener::router_alert, &message);
        host.send(Addresses::V6(own, to), IpProtocol::HopByHop, 1, &payload);
    }
}

impl Host {
    /// Whether it takes what goes to a group.
    pub fn is_in<A: Group>(&mut self, group: &A) -> bool {
        *group == A::HOSTS || A::groups(self).is_member(group)
    }

    /// Is a member of its groups, those of its addresses too, and reports what is due.
    pub fn report_all(&mut self) {
        let (v4, v6) = self.wanted.unzip();
        self.join(Vec::from_iter(v4));
        let own = self.addresses.entries().iter();
        let own = own.filter(|own| own.state != State::Duplicate);
        let own = own.map(|own| neighbor::solicited_node(&own.address));
        self.join(own.chain(v6).collect());
        self.report::<Ipv4Address>();
        self.report::<Ipv6Address>();
    }

    /// Is a member of these groups, and of no others.
    fn join<A: Group>(&mut self, wanted: Vec<A>) {
        let groups = A::groups(self);
        for entry in groups.groups().to_vec() {
            if !wanted.contains(&entry.group) {
                groups.leave(&entry.group);
            }
        }
        for group in wanted {
            groups.join(&group);
        }
    }

    fn report<A: Group>(&mut self) {
        while let Some(report) = A::groups(self).next_report(by_chance()) {
            self.send_report(&report);
        }
    }

    fn send_report<A: Group>(&mut self, report: &Report<A>) -> Option<()> {
        let (group, version) = (report.group, A::groups(self).version());
        let asked: Vec<A> = report.asked.iter().map(|it| it.source).collect();
        let mut octets = [0; 1_480];
        let mut records = RecordsWriter::new(&mut octets);
        records.push(report.record_type(), group, &asked).ok()?;
        let message = report.message(version, records.records())?;
        println!("report {} version {version} {group}", A::family());
        A::send(self, report.destination(version), &message);
        Some(())
    }

    /// Takes a message; None where it is no query.
    pub fn hear<A: Group>(&mut self, message: &Membership<'_, A>) -> Option<()> {
        A::groups(self).hear(message, by_chance());
        message.max_resp_time()?;
        println!("query {} version {}", A::family(), message.version());
        Some(())
    }

    /// Takes a message, which has a router alert and comes from the link (RFC 3810 section 6.2).
    pub fn receive_mld(&mut self, datagram: &Datagram<'_>) -> Option<()> {
        let Addresses::V6(from, to) = datagram.addresses else {
            return None;
        };
        let options = ipv6hbh::Header::new_unchecked(datagram.hop_by_hop?);
        let options = ipv6hbh::Repr::parse(&options).ok()?.options;
        let alert = Ipv6OptionRepr::RouterAlert(RouterAlert::MulticastListenerDiscovery);
        if !options.contains(&alert) || datagram.hop_limit != 1 || !from.is_link_local() {
            return None;
        }
        self.hear(&Membership::parse_mld(datagram.payload, &from, &to).ok()?)
    }
}
