//! What comes in: frames, and in them fragments, echoes, datagrams for ports that have no listener,
//! and messages of other modules.

use super::*;
use control_wire::frames::{Datagram, UdpPacket, UdpRepr};
use control_wire::groups::Membership;
use control_wire::headers::{Header, ethernet};
use control_wire::{IPV6_HEADER_LEN, Ipv6Packet, Ipv6Repr};
use examples::{ping, unreachable};
use groups::Group;
use reassembly::{Answer, Fragment};
use std::fmt::Display;

/// The errors that are sent in a second at most (RFC 4443 section 2.4(f)).
const MOST_ERRORS: u32 = 100;

impl Host {
    /// Takes a frame; None where it is not for this host or not good.
    pub fn receive(&mut self, frame: &[u8]) -> Option<()> {
        let (header, payload) = ethernet::Header::parse(frame).ok()?;
        let to_many = header.dst_addr.is_multicast();
        match header.ether_type {
            _ if header.dst_addr != self.hardware && !to_many => None,
            ethernet::IPV4 => self.receive_v4(payload, to_many),
            ethernet::IPV6 => self.receive_v6(payload, to_many),
            ethernet::ARP => self.receive_arp(payload),
            _ => None,
        }
    }

    fn receive_v4(&mut self, packet: &[u8], to_many: bool) -> Option<()> {
        let (header, _) = Header::parse(packet).ok()?;
        let (from, to) = (header.src_addr, header.dst_addr);
        let is_ours = (to_many && self.is_in(&to)) || (!to_many && to == self.v4);
        if !is_ours || from.is_multicast() || from.is_broadcast() {
            return None;
        }
        if let Some(fragment) = Fragment::parse_v4(packet) {
            let Ok(Answer::Whole(whole)) = self.reassembly.add(0, &fragment) else {
                return None;
            };
            let header = Header {
                more_frags: false,
                frag_offset: 0,
                payload_len: whole.payload.len(),
                ..header
            };
            let len = header.buffer_len();
            // A packet with its header is no longer than 65,535 bytes.
            u16::try_from(len + whole.payload.len()).ok()?;
            let packet = written(len, |octets| header.emit_into(octets), &whole.payload);
            return self.receive_v4(&packet, to_many);
        }
        let datagram = Datagram::parse_v4(packet).ok()?;
        let (payload, mut out) = (datagram.payload, vec![0; packet.len().max(600)]);
        let len = match datagram.protocol {
            // It comes from the link (RFC 3376 section 4).
            IpProtocol::Igmp if datagram.hop_limit == 1 => {
                return self.hear(&Membership::parse_igmp(payload).ok()?);
            }
            // Nobody is there to be answered, or all hosts would answer (RFC 1122 section 3.2.2).
            _ if from.is_unspecified() || to == Ipv4Address::HOSTS => return None,
            IpProtocol::Icmp => ping::answer(payload, &mut out)?,
            IpProtocol::Udp => unreachable::port_unreachable(packet, &mut out)?,
            _ => return None,
        };
        self.tell(&datagram, from, len)?;
        let ends = Addresses::V4(self.v4, from);
        self.send(ends, IpProtocol::Icmp, 64, &out[..len]);
        Some(())
    }

    fn receive_v6(&mut self, packet: &[u8], to_many: bool) -> Option<()> {
        let header = Ipv6Repr::parse(&Ipv6Packet::new_checked(packet).ok()?).ok()?;
        let (from, to) = (header.src_addr, header.dst_addr);
        let own = self.addresses.look_up(&to);
        let is_own = own.is_some_and(|own| own.state == State::Assigned);
        let is_ours = (to_many && self.is_in(&to)) || (!to_many && is_own);
        if !is_ours || from.is_multicast() {
            return None;
        }
        if let Some(fragment) = Fragment::parse_v6(packet) {
            let Ok(Answer::Whole(whole)) = self.reassembly.add(0, &fragment) else {
                return None;
            };
            let header = Ipv6Repr {
                next_header: whole.protocol,
                payload_len: whole.payload.len(),
                ..header
            };
            let write = |octets: &mut [u8]| header.emit_into(octets);
            return self.receive_v6(&written(IPV6_HEADER_LEN, write, &whole.payload), to_many);
        }
        let datagram = Datagram::parse_v6(packet).ok()?;
        let own = is_own.then_some(to);
        let own = own.or_else(|| self.addresses.source(&from));
        let (payload, mut out) = (datagram.payload, vec![0; packet.len().max(1_240)]);
        let len = match (datagram.protocol, payload.first()?) {
            // One that is to be passed on is not for a host (RFC 8200 section 4.4).
            _ if datagram.addresses != Addresses::V6(from, to) => return None,
            (IpProtocol::Icmpv6, 130 | 131) => return self.receive_mld(&datagram),
            (IpProtocol::Icmpv6, 134..=136) => return self.receive_ndisc(&datagram),
            // Nobody is there to be answered (RFC 4443 section 2.4).
            _ if from.is_unspecified() => return None,
            (IpProtocol::Icmpv6, _) => ping::answer_v6(&from, &to, &own?, payload, &mut out)?,
            (IpProtocol::Udp, _) => unreachable::port_unreachable_v6(&own?, packet, &mut out)?,
            _ => return None,
        };
        self.tell(&datagram, from, len)?;
        let ends = Addresses::V6(own?, from);
        self.send(ends, IpProtocol::Icmpv6, self.link.hop_limit, &out[..len]);
        Some(())
    }

    /// Prints what is answered: an echo, or that a port has no listener, where such an error may be
    /// sent yet.
    fn tell(&mut self, datagram: &Datagram<'_>, from: impl Display, len: usize) -> Option<()> {
        if datagram.protocol != IpProtocol::Udp {
            println!("echo {from} {len}");
            return Some(());
        }
        let (packet, caps) = (
            UdpPacket::new_unchecked(datagram.payload),
            Default::default(),
        );
        let port = UdpRepr::parse(&packet, &datagram.addresses, &caps)
            .ok()?
            .dst_port;
        self.errors += 1;
        (self.errors <= MOST_ERRORS).then(|| println!("unreachable {from} {port}"))
    }
}
