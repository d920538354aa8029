//! Neighbors, by ARP (RFC 826) and by neighbor discovery (RFC 4861), and the addresses that a host
//! forms itself (RFC 4862).

use super::{link::on_ethernet, *};
use control_wire::frames::Datagram;
use control_wire::headers::{arp, ethernet};
use control_wire::ndisc::NeighborFlags;
use control_wire::neighbors::preference::router_preference;
use control_wire::neighbors::{NeighborOption, NeighborOptions};
use control_wire::record::Name;
use control_wire::{IPV6_LINK_LOCAL_ALL_ROUTERS, RawHardwareAddress, dns};
use examples::neighbor::NeighborInformation;
use examples::neighbor_cache::entry;
use examples::router::{self, RouterInformation};

impl Host {
    /// Learns of a neighbor, and prints its hardware address where it is new.
    fn learn<T>(&mut self, of: Ipv6Address, learn: impl FnOnce(&mut NeighborCache) -> T) -> T {
        let hardware = |cache: &NeighborCache| cache.look_up(&of)?.lladdr;
        let before = hardware(&self.neighbors);
        let learned = learn(&mut self.neighbors);
        let now = hardware(&self.neighbors);
        if let Some(hardware) = now.filter(|_| now != before) {
            println!("neighbor {} {hardware}", unmapped(of));
        }
        learned
    }

    /// Learns that the sender of a message has this hardware address.
    fn learn_sender(&mut self, from: Ipv6Address, hardware: Option<RawHardwareAddress>) {
        self.learn(from, |cache| cache.learn_from_solicitation(&from, hardware));
    }

    /// Learns what a neighbor says of itself.
    fn learn_told(&mut self, told: &NeighborInformation) {
        let time = self.link.reachable_time.total_millis() as u32;
        let learn = |cache: &mut NeighborCache| cache.learn_from_advertisement(told, time);
        if self.learn(told.addr, learn) {
            self.routers.remove_router(&told.addr);
        }
    }

    /// Asks for the neighbors that are due: for one that is known, at its own address.
    pub fn ask(&mut self) {
        let time = self.link.retrans_time.total_millis() as u32;
        while let Some(entry) = self.neighbors.next_solicitation(time) {
            let known = entry.lladdr.filter(|_| entry.state == entry::State::Probe);
            if let IpAddr::V4(target) = unmapped(entry.address) {
                let to = known.map_or(EthernetAddress::BROADCAST, on_ethernet);
                self.send_arp(arp::Operation::Request, to, target.into());
            } else if let Some(own) = self.addresses.source(&entry.address) {
                let group = neighbor::solicited_node(&entry.address);
                self.solicit(own, known.map_or(group, |_| entry.address), entry.address);
            }
        }
    }

    fn solicit(&mut self, own: Ipv6Address, to: Ipv6Address, target: Ipv6Address) {
        let mut out = [0; 32];
        let len = neighbor::solicit(&own, &to, &target, self.hardware, &mut out);
        self.send_ndisc(own, to, &out[..len.unwrap_or(0)]);
    }

    /// Sees whether its addresses are free (RFC 4862 section 5.4).
    pub fn detect(&mut self) {
        while let Some(own) = self.addresses.next_step() {
            if own.state == State::Tentative {
                println!("tentative {}", own.address);
                let group = neighbor::solicited_node(&own.address);
                self.solicit(Ipv6Address::UNSPECIFIED, group, own.address);
                continue;
            }
            println!("address {}", own.address);
            if own.address == self.link_local {
                // It reports its groups again, from this address.
                let groups = self.mld.groups().to_vec();
                for entry in groups.iter().filter(|it| it.is_member) {
                    self.mld.leave(&entry.group);
                    self.mld.join(&entry.group);
                }
                self.soliciting = 12_000;
            }
        }
    }

    /// Gives an address up that another host has or wants (RFC 4862 section 5.4.5).
    fn give_up(&mut self, address: Ipv6Address) {
        if self.addresses.refuse(&address) {
            println!("duplicate {address}");
        }
    }

    /// Solicits routers each four seconds, three times, until one answers
    /// (RFC 4861 section 6.3.7).
    pub fn solicit_routers(&mut self) {
        let is_due = self.soliciting > 0 && self.soliciting % 4_000 == 0;
        if is_due && self.routers.routers.is_empty() {
            println!("solicits routers");
            let (own, mut out) = (self.link_local, [0; 16]);
            let len = router::solicit(&own, self.hardware, &mut out).unwrap_or(0);
            self.send_ndisc(own, IPV6_LINK_LOCAL_ALL_ROUTERS, &out[..len]);
        }
        self.soliciting = self.soliciting.saturating_sub(TICK);
    }

    fn send_ndisc(&mut self, own: Ipv6Address, to: Ipv6Address, message: &[u8]) {
        self.send(Addresses::V6(own, to), IpProtocol::Icmpv6, 255, message);
    }

    fn send_arp(&mut self, kind: arp::Operation, to: EthernetAddress, target: Ipv4Address) -> bool {
        let packet = arp::Repr {
            operation: kind,
            source_hardware_addr: self.hardware,
            source_protocol_addr: self.v4,
            target_hardware_addr: to,
            target_protocol_addr: target,
        };
        let packet = written(arp::LEN, |octets| packet.emit_into(octets), &[]);
        self.transmit(to, ethernet::ARP, &packet)
    }

    /// Announces the address of IPv4 (RFC 5227 section 2.3).
    pub fn announce(&mut self) -> bool {
        self.send_arp(arp::Operation::Request, EthernetAddress::BROADCAST, self.v4)
    }

    pub fn receive_arp(&mut self, octets: &[u8]) -> Option<()> {
        let told = arp::Repr::parse(octets).ok()?;
        if told.target_protocol_addr != self.v4 {
            return None;
        }
        let (hardware, sender) = (told.source_hardware_addr, told.source_protocol_addr);
        if told.operation == arp::Operation::Request {
            self.send_arp(arp::Operation::Reply, hardware, sender);
            self.learn_sender(mapped(sender), Some(hardware.into()));
        } else {
            self.learn_told(&NeighborInformation {
                addr: mapped(sender),
                flags: NeighborFlags::SOLICITED | NeighborFlags::OVERRIDE,
                lladdr: Some(hardware.into()),
            });
        }
        Some(())
    }

    /// Takes a message of neighbor discovery.
    pub fn receive_ndisc(&mut self, datagram: &Datagram<'_>) -> Option<()> {
        let Addresses::V6(from, to) = datagram.addresses else {
            return None;
        };
        let (hops, octets) = (datagram.hop_limit, datagram.payload);
        if let Some(told) = neighbor::neighbor(&from, &to, hops, octets) {
            self.give_up(told.addr);
            self.learn_told(&told);
        } else if let Some(told) = router::router_information(&from, &to, hops, octets) {
            self.routers.learn(&from, &to, hops, octets);
            self.learn_router(from, &told, octets);
        } else {
            let asked = neighbor::request(&from, &to, hops, octets)?;
            let own = self.addresses.look_up(&asked.target)?;
            if own.state == State::Assigned {
                println!("solicited {} by {from}", own.address);
                self.learn_sender(from, asked.lladdr);
                let (own, mut out) = (own.address, [0; 32]);
                let hardware = self.hardware;
                let answer = neighbor::answer(&from, &to, hops, &own, hardware, octets, &mut out)?;
                self.send_ndisc(own, answer.destination, &out[..answer.len]);
            } else if from.is_unspecified() {
                self.give_up(own.address);
            }
        }
        Some(())
    }

    /// Takes what a router advertises (RFC 4861 section 6.3.4, RFC 8106).
    fn learn_router(&mut self, from: Ipv6Address, told: &RouterInformation, octets: &[u8]) {
        let (preference, flags) = (router_preference(octets[5]), told.flags);
        let (lifetime, hop_limit) = (told.lifetime.secs(), told.hop_limit);
        let reachable_time = told.reachable_time.total_millis();
        let retrans_time = told.retrans_time.total_millis();
        print!("router {from} lifetime={lifetime} preference={preference} flags={flags} ");
        print!("hop_limit={hop_limit} reachable_time={reachable_time} ");
        println!("retrans_time={retrans_time}");
        self.link.learn(told);
        self.learn_sender(from, told.lladdr);
        for option in NeighborOptions::new(router::options(octets)).flatten() {
            match option {
                NeighborOption::SearchList { lifetime, names } => {
                    let packet = dns::Packet::new_unchecked(&[0; 12]); // no name points to it
                    let names = names.iter().flatten();
                    let names = names.flat_map(|it| Name::read(&packet, it));
                    let names: String = names.map(|name| format!(" {name}")).collect();
                    println!("search list lifetime={lifetime}{names}");
                }
                option => println!("{option}"),
            }
            if let NeighborOption::Prefix(prefix) = option {
                self.addresses.learn_prefix(&prefix, &self.link_local);
            }
        }
    }
}
