// Made from crates/dump_captures/src/content.rt by rust/erase.
//! What a control packet holds.

use crate::kind::{Kind, Reason};
use crate::ports::{Ports, has_given, has_port};
use crate::refusal::Refusal;
use control_wire::IpProtocol;
use control_wire::frames::tcp::Prefixed;
use control_wire::frames::{Addresses, Datagram, TcpSegment, udp};
use message_fields::{Message, Service};

/// What a control packet holds: a message, whole or in part, or nothing that can be read.
#[derive(Debug, PartialEq, Eq, Clone, Copy)]
pub enum Content<'a> {
    /// The message of a whole datagram.
    Whole(Message<'a>),
    /// The message of a datagram of which so many bytes are missing, counted under this reason.
    Cut(Message<'a>, u64, Reason),
    /// A packet of this kind that is refused and counted under this reason.
    Refused(Kind, Reason, Refusal),
}

impl Content<'_> {
    /// The kind of the packet.
    #[inline]
    pub fn kind(&self) -> Kind {
        match self {
            Content::Whole(message) | Content::Cut(message, _, _) => kind_of(message),
            Content::Refused(kind, _, _) => *kind,
        }
    }

    /// Whether it is a message over TCP.
    pub fn is_over_tcp(&self) -> bool {
        matches!(self, Content::Whole(Message::Tcp(_, _, _)))
    }
}

// The kind of a message.
fn kind_of(message: &Message<'_>) -> Kind {
    match message {
        Message::Icmp4(_) => Kind::Icmp4,
        Message::Igmp(_) => Kind::Igmp,
        Message::Icmp6(_, _, _) => Kind::Icmp6,
        Message::Udp(Service::Dns, _, _) => Kind::Dns,
        Message::Udp(Service::Mdns, _, _) => Kind::Mdns,
        Message::Udp(Service::Llmnr, _, _) => Kind::Llmnr,
        Message::Udp(Service::Nbns, _, _) => Kind::Nbns,
        Message::Udp(Service::Dhcp, _, _) => Kind::Dhcp,
        Message::Tcp(_, _, _) => Kind::Dns,
    }
}

// The bytes of a DNS header (RFC 1035 section 4.1.1).
const DNS_HEADER_LEN: usize = 12;

// A packet of which too little can be read to tell its kind.
const UNKNOWN: Content<'static> = Content::Refused(
    Kind::Frame,
    Reason::Short,
    Refusal::Message(message_fields::Refusal::Udp(udp::Refusal::Short)),
);

/// What a datagram between these addresses holds, where these ports are given; None for other protocols.
pub fn content_by<'a>(
    given: &Ports,
    addresses: &Addresses,
    protocol: IpProtocol,
    ports: Option<(u16, u16)>,
    payload: &'a [u8],
) -> Option<Content<'a>> {
    match addresses {
        Addresses::V4(_, _) => match protocol {
            IpProtocol::Icmp => Some(Content::Whole(Message::Icmp4(payload))),
            IpProtocol::Igmp => Some(Content::Whole(Message::Igmp(payload))),
            IpProtocol::Udp => content_of_udp(given, addresses, ports, payload),
            _ => None,
        },
        Addresses::V6(src_addr, dst_addr) => match protocol {
            IpProtocol::Icmpv6 => Some(Content::Whole(Message::Icmp6(
                *src_addr, *dst_addr, payload,
            ))),
            IpProtocol::Udp => content_of_udp(given, addresses, ports, payload),
            IpProtocol::HopByHop
            | IpProtocol::Ipv6Route
            | IpProtocol::Ipv6Frag
            | IpProtocol::Ipv6Opts => Some(UNKNOWN),
            _ => None,
        },
    }
}

// What a UDP datagram between these ports holds.
fn content_of_udp<'a>(
    given: &Ports,
    addresses: &Addresses,
    ports: Option<(u16, u16)>,
    payload: &'a [u8],
) -> Option<Content<'a>> {
    let Some(ports) = ports else {
        return Some(UNKNOWN);
    };
    let service = service_of(given, addresses.is_v4(), ports)?;
    Some(Content::Whole(Message::Udp(service, *addresses, payload)))
}

// The service of these ports, one of which is given to it, or else its own.
fn service_of(given: &Ports, is_v4: bool, ports: (u16, u16)) -> Option<Service> {
    match given.service(is_v4, ports) {
        Some(service) => Some(service),
        None => own_service(is_v4, ports),
    }
}

// The service of these ports, one of which is its own.
fn own_service(is_v4: bool, ports: (u16, u16)) -> Option<Service> {
    if has_port(ports, 53) {
        Some(Service::Dns)
    } else if has_port(ports, 5353) {
        Some(Service::Mdns)
    } else if has_port(ports, 5355) {
        Some(Service::Llmnr)
    } else if has_port(ports, 137) {
        Some(Service::Nbns)
    } else if is_v4 && (has_port(ports, 67) || has_port(ports, 68)) {
        Some(Service::Dhcp)
    } else {
        None
    }
}

// Whether one of these ports is that of DNS over TCP, or given to it.
fn is_dns(given: &Ports, ports: (u16, u16)) -> bool {
    has_port(ports, 53) || has_given(ports, given.dns)
}

/// The messages of DNS in a segment of TCP, where these ports are given; None where the datagram has none.
pub fn messages_over_tcp<'a>(given: &Ports, datagram: &Datagram<'a>) -> Option<Prefixed<'a>> {
    if datagram.protocol != IpProtocol::Tcp {
        return None;
    }
    let Ok(segment) = TcpSegment::parse(datagram.payload) else {
        return None;
    };
    if !is_dns(given, (segment.src_port, segment.dst_port)) {
        return None;
    }
    Prefixed::new(segment.payload, DNS_HEADER_LEN)
}
