//! The messages of both protocols in their packets, as they are read and sent.

use control_wire::frames::{Addresses, Datagram, Link, Network};
use control_wire::groups::Membership;
use control_wire::headers::{Header, ROUTER_ALERT};
use control_wire::{IPV6_HEADER_LEN, IPV6_LINK_LOCAL_ALL_NODES, Ipv6Repr};
use control_wire::{IpProtocol, Ipv4Address, Ipv6Address};
use examples::listener;
use examples::querier::reception::RouterAddress;
use std::fmt::Display;

/// What differs between the protocols, by their addresses.
pub trait Protocol: RouterAddress + Display {
    const NAME: &str;
    const VERSION: u8;
    /// A second, as the code of a response time.
    const SECOND: u16;

    /// The message of a frame, and who sent it.
    fn heard(frame: &[u8]) -> Option<(Self, Membership<'_, Self>)>;

    /// The frame without its source, in three parts: where it goes, its type, and the packet with a query of a group,
    /// or of all.
    fn frame(own: Self, group: Option<Self>, query: &Membership<'_, Self>) -> [Vec<u8>; 3];
}

impl Protocol for Ipv4Address {
    const NAME: &str = "IGMP";
    const VERSION: u8 = 3;
    const SECOND: u16 = 10;

    fn heard(frame: &[u8]) -> Option<(Self, Membership<'_, Self>)> {
        let frame = Link::Ethernet.frame(frame).ok()?;
        if frame.network != Network::Ipv4 {
            return None;
        }
        let datagram = Datagram::parse_v4(frame.payload).ok()?;
        match datagram.addresses {
            Addresses::V4(from, _) if datagram.protocol == IpProtocol::Igmp => {
                Some((from, Membership::parse_igmp(datagram.payload).ok()?))
            }
            _ => None,
        }
    }

    fn frame(own: Self, group: Option<Self>, query: &Membership<'_, Self>) -> [Vec<u8>; 3] {
        let to = group.unwrap_or(Ipv4Address::new(224, 0, 0, 1));
        let mut message = vec![0; query.buffer_len()];
        query.emit_igmp(&mut message);
        let header = Header {
            service: if query.version() == 3 { 0xc0 } else { 0 }, // RFC 3376 section 4
            ident: 0,
            dont_frag: true,
            more_frags: false,
            frag_offset: 0,
            hop_limit: 1,
            protocol: IpProtocol::Igmp,
            src_addr: own,
            dst_addr: to,
            options: &ROUTER_ALERT,
            payload_len: message.len(),
        };
        let mut packet = vec![0; header.buffer_len()];
        header.emit_into(&mut packet);
        packet.extend(message);
        let [_, b, c, d] = to.octets(); // RFC 1112 section 6.4
        [vec![1, 0, 0x5e, b & 0x7f, c, d], vec![0x08, 0x00], packet]
    }
}

impl Protocol for Ipv6Address {
    const NAME: &str = "MLD";
    const VERSION: u8 = 2;
    const SECOND: u16 = 1_000;

    fn heard(frame: &[u8]) -> Option<(Self, Membership<'_, Self>)> {
        let frame = Link::Ethernet.frame(frame).ok()?;
        if frame.network != Network::Ipv6 {
            return None;
        }
        let datagram = Datagram::parse_v6(frame.payload).ok()?;
        match datagram.addresses {
            // What does not come from an address of the link is no message (RFC 3810 section 5.2.13).
            Addresses::V6(from, to) if datagram.hop_limit == 1 && from.is_link_local() => {
                let message = Membership::parse_mld(datagram.payload, &from, &to);
                Some((from, message.ok()?))
            }
            _ => None,
        }
    }

    fn frame(own: Self, group: Option<Self>, query: &Membership<'_, Self>) -> [Vec<u8>; 3] {
        let to = group.unwrap_or(IPV6_LINK_LOCAL_ALL_NODES);
        let mut message = vec![0; query.buffer_len()];
        query.emit_mld(&mut message, &own, &to);
        let mut packet = vec![0; IPV6_HEADER_LEN + 8];
        let header = Ipv6Repr {
            src_addr: own,
            dst_addr: to,
            next_header: IpProtocol::HopByHop,
            payload_len: 8 + message.len(),
            hop_limit: 1,
        };
        header.emit_into(&mut packet[..IPV6_HEADER_LEN]);
        listener::router_alert(&mut packet[IPV6_HEADER_LEN..]);
        packet.extend(message);
        let [.., a, b, c, d] = to.octets(); // RFC 2464 section 7
        [vec![0x33, 0x33, a, b, c, d], vec![0x86, 0xdd], packet]
    }
}
