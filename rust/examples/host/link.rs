//! What goes out: frames of Ethernet to neighbors, with packets of IPv4 and of IPv6 in them, in
//! fragments where a frame has no room for them.

use super::*;
use control_wire::headers::{Fragments, Header, ROUTER_ALERT, ethernet, ipv6_fragment};
use control_wire::{IPV6_HEADER_LEN, Ipv6Repr, RawHardwareAddress};
use std::io::Write;
use std::mem::take;
use std::net::{Ipv4Addr, Ipv6Addr};

/// The bytes of an Ethernet's packet of IPv4 without its header (RFC 894, RFC 791).
const ROOM_V4: usize = 1_480;

/// How many packets wait: a flood takes no more memory.
const MOST_WAITING: usize = 256;

/// The address of IPv6 to which one of IPv4 is mapped.
pub fn mapped(address: Ipv4Address) -> Ipv6Address {
    Ipv4Addr::from(address).to_ipv6_mapped().into()
}

/// The address that is mapped to this one, or else this one.
pub fn unmapped(address: Ipv6Address) -> IpAddr {
    Ipv6Addr::from(address).to_canonical()
}

/// An address on an Ethernet.
pub fn on_ethernet(address: RawHardwareAddress) -> EthernetAddress {
    EthernetAddress::from_bytes(address.as_bytes())
}

/// So many octets, as they are written, and what follows them.
pub fn written(len: usize, write: impl FnOnce(&mut [u8]), rest: &[u8]) -> Vec<u8> {
    let mut octets = vec![0; len];
    write(&mut octets);
    octets.extend_from_slice(rest);
    octets
}

impl Host {
    /// Sends a frame, and says whether the device took it: one that is down does not.
    pub fn transmit(&mut self, to: EthernetAddress, ether_type: u16, payload: &[u8]) -> bool {
        let header = ethernet::Header {
            src_addr: self.hardware,
            dst_addr: to,
            ether_type,
        };
        let frame = written(ethernet::LEN, |octets| header.emit_into(octets), payload);
        let sent = self.device.write_all(&frame);
        let sent = sent.inspect_err(|error| println!("not sent: {error}"));
        sent.is_ok()
    }

    /// Sends the packets whose neighbors are known, and drops those whose neighbors do not answer.
    pub fn send_waiting(&mut self) {
        for (next, packet) in take(&mut self.waiting) {
            let (ether_type, group) = match unmapped(next) {
                IpAddr::V4(next) => (ethernet::IPV4, ethernet::multicast_v4(next.into())),
                IpAddr::V6(next) => (ethernet::IPV6, ethernet::multicast_v6(next.into())),
            };
            let to = match self.neighbors.use_entry(&next) {
                Some(entry) => entry.lladdr.map(on_ethernet),
                None if unmapped(next).is_multicast() => Some(group),
                None => continue,
            };
            match to {
                Some(to) => drop(self.transmit(to, ether_type, &packet)),
                None => self.waiting.push((next, packet)),
            }
        }
    }

    /// Has a packet wait for its neighbor, which is looked for where it is not known.
    fn deliver(&mut self, next: Ipv6Address, packet: Vec<u8>) {
        let is_known = unmapped(next).is_multicast() || self.neighbors.begin(&next);
        if is_known && self.waiting.len() < MOST_WAITING {
            self.waiting.push((next, packet));
        }
    }

    /// Sends a message, in fragments where a frame has no room for it.
    pub fn send(&mut self, ends: Addresses, protocol: IpProtocol, hop_limit: u8, message: &[u8]) {
        let Addresses::V4(src_addr, dst_addr) = ends else {
            return self.send_v6(ends, protocol, hop_limit, message);
        };
        // One of IGMP has a router alert (RFC 3376 section 4).
        let is_igmp = protocol == IpProtocol::Igmp;
        let options = if is_igmp { &ROUTER_ALERT[..] } else { &[] };
        self.ident = self.ident.wrapping_add(1);
        let fragments = Fragments::new(message, ROOM_V4 - options.len());
        for it in fragments.into_iter().flatten() {
            let header = Header {
                service: 0,
                ident: self.ident as u16,
                dont_frag: false,
                more_frags: it.more_frags,
                frag_offset: it.frag_offset,
                hop_limit,
                protocol,
                src_addr,
                dst_addr,
                options,
                payload_len: it.part.len(),
            };
            let packet = written(header.buffer_len(), |to| header.emit_into(to), it.part);
            self.deliver(mapped(dst_addr), packet);
        }
    }

    fn send_v6(&mut self, ends: Addresses, protocol: IpProtocol, hop_limit: u8, message: &[u8]) {
        let room = self.link.mtu as usize - IPV6_HEADER_LEN;
        // The options before a message of MLD, and fragments, are not divided.
        if protocol == IpProtocol::Icmpv6 && message.len() > room {
            self.ident = self.ident.wrapping_add(1);
            let fragments = Fragments::new(message, room - ipv6_fragment::LEN);
            for it in fragments.into_iter().flatten() {
                let header = ipv6_fragment::Header {
                    next_header: protocol,
                    frag_offset: it.frag_offset,
                    more_frags: it.more_frags,
                    ident: self.ident,
                };
                let payload = written(ipv6_fragment::LEN, |to| header.emit_into(to), it.part);
                self.send_v6(ends, IpProtocol::Ipv6Frag, hop_limit, &payload);
            }
        } else if let Addresses::V6(src_addr, dst_addr) = ends {
            let header = Ipv6Repr {
                src_addr,
                dst_addr,
                next_header: protocol,
                payload_len: message.len(),
                hop_limit,
            };
            let packet = written(IPV6_HEADER_LEN, |to| header.emit_into(to), message);
            if let Some(next) = self.routers.next_hop(&dst_addr) {
                self.deliver(next, packet);
            }
        }
    }
}
